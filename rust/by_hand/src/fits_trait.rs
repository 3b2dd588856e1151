//! What the compiler says of a type whose range is not known.

#[cfg_attr(
    has_diagnostic,
    diagnostic::on_unimplemented(
        message = "`{Self}` does not implement `Fits` of cellarcove",
        note = "the built-in integer types implement it; generic code has the bound `T: Fits`",
        note = "a type of your own that is `Copy` implements `parts` and `ends`",
        note = "a big integer has no ends: call the function that is not of `checked`"
    )
)]
trait Fits {}

#[cfg_attr(has_do_not_recommend, diagnostic::do_not_recommend)]
impl<T: NativeInteger> Fits for T {}
