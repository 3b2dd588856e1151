//! What a type of one's own owes; what the compiler says of a type that is no `Integer`; the attribute of `divides`; and hidden
//! methods of `Integer`. At a type of one's own its operators decide if a result does not fit. No other crate can make a `Reason`, so
//! no other crate calls them.

use guards::Reason;

#[doc = "# Your own type"]
#[doc = ""]
#[doc = "Its operators `+`, `-`, `*`, `/` and `%` have to return the exact result if the type"]
#[doc = "has it, and to panic if not, in a release build too: the methods that you do not write,"]
#[doc = "and most functions here, are made of them, and return what they return. With a plain"]
#[doc = "`self.0 * other.0` a product that does not fit is a wrong number. The methods that you"]
#[doc = "write have to be exact too if the result fits."]
#[cfg_attr(
    has_diagnostic,
    diagnostic::on_unimplemented(
        message = "`{Self}` does not implement `Integer` of cellarcove",
        note = "the built-in integer types implement it, and a type of your own by hand",
        note = "`BigInt` implements it if cellarcove's package `num-integer` is in its place:",
        note = "write `num-integer = {{ path = .. }}` below `[patch.crates-io]` of the workspace"
    )
)]
trait Integer {
    #[deprecated(note = "Please use is_multiple_of instead")]
    #[must_use]
    fn divides(&self, other: &Self) -> bool {
        self.is_multiple_of(other)
    }

    #[doc(hidden)]
    #[inline]
    #[track_caller]
    #[must_use]
    fn exact_sum(self, other: Self, _reason: Reason) -> Self {
        self + other
    }

    #[doc(hidden)]
    #[inline]
    #[track_caller]
    #[must_use]
    fn exact_difference(self, other: Self, _reason: Reason) -> Self {
        self - other
    }

    #[doc(hidden)]
    #[inline]
    #[track_caller]
    #[must_use]
    fn exact_product(self, other: Self, _reason: Reason) -> Self {
        self * other
    }

    #[doc(hidden)]
    #[inline]
    #[track_caller]
    fn expect_pair(&self, _other: &Self, _reason: Reason) {}

    #[doc(hidden)]
    #[inline]
    #[track_caller]
    fn expect_lcm(&self, _other: &Self, _reason: Reason) {}
}
