//! What the compiler says of a type without roots. `HasRoots` is there to be named by it, with the call of a method too.

#[cfg_attr(
    has_diagnostic,
    diagnostic::on_unimplemented(
        message = "`{Self}` does not implement `Roots` of cellarcove",
        note = "those of at most 64 bits implement it; generic code has the bound `T: Roots`",
        note = "`i128` and `u128` have no roots here: `isqrt` of std is their square root",
        note = "a type of your own implements it by hand"
    )
)]
trait Roots {}

/// A built-in type that has roots: one of at most 64 bits.
#[cfg_attr(
    has_diagnostic,
    diagnostic::on_unimplemented(
        message = "`{Self}` does not implement `Roots` of cellarcove",
        note = "those of at most 64 bits implement it; generic code has the bound `T: Roots`",
        note = "`i128` and `u128` have no roots here: `isqrt` of std is their square root",
        note = "a type of your own implements it by hand"
    )
)]
pub trait HasRoots: NativeInteger<Magnitude = u64> {}

#[cfg_attr(has_do_not_recommend, diagnostic::do_not_recommend)]
impl<T: NativeInteger<Magnitude = u64>> HasRoots for T {}

#[cfg_attr(has_do_not_recommend, diagnostic::do_not_recommend)]
impl<T: HasRoots> Roots for T {}

#[cfg_attr(has_do_not_recommend, diagnostic::do_not_recommend)]
impl<T: NativeInteger<Magnitude = u64>> SqrtCounted for T {}
