//! The hidden methods of `Integer` for the built-in types, which panic with the reason if the result does not fit, and what the compiler says
//! of another type.

use crate::integer_core::guards::{check, Reason};

#[cfg_attr(
    has_diagnostic,
    diagnostic::on_unimplemented(
        message = "`{Self}` is no built-in integer type",
        note = "the twelve built-in integer types implement it, and no other type can",
        note = "a type of your own implements `Average`, `Fits` or `Modular` instead"
    )
)]
trait NativeInteger {}

#[cfg_attr(has_do_not_recommend, diagnostic::do_not_recommend)]
impl<T: Native + PrimInt> NativeInteger for T {}

#[cfg_attr(has_do_not_recommend, diagnostic::do_not_recommend)]
impl<T: Native> Integer for T {
    #[inline]
    fn exact_sum(self, other: T, reason: Reason) -> T {
        some(self.checked_add(&other), reason.0)
    }

    #[inline]
    fn exact_difference(self, other: T, reason: Reason) -> T {
        some(self.checked_sub(&other), reason.0)
    }

    #[inline]
    fn exact_product(self, other: T, reason: Reason) -> T {
        some(self.checked_mul(&other), reason.0)
    }

    #[inline]
    fn expect_pair(&self, other: &T, reason: Reason) {
        let (a, b, zero, least) = (*self, *other, T::zero(), T::min_value());
        if least < zero {
            let is_end = |x: T| x == zero || x == least;
            let fits = !is_end(a) || !is_end(b) || a.min(b) != least;
            check(fits, "the greatest common divisor does not fit");
        } else {
            check(a.is_multiple_of(&b) || b.is_multiple_of(&a), reason.0);
        }
    }

    /// Where the product of the numbers fits, so does their multiple.
    #[inline]
    fn expect_lcm(&self, other: &T, reason: Reason) {
        if self.checked_mul(other).is_none() {
            some((*self / self.gcd(other)).checked_mul(other), reason.0);
        }
    }
}
