//! What the compiler says of a type without averages.

#[cfg_attr(
    has_diagnostic,
    diagnostic::on_unimplemented(
        message = "`{Self}` does not implement `Average` of cellarcove",
        note = "the built-in integer types implement it; generic code has the bound `T: Average`",
        note = "a type of your own implements it by hand; no big integer has it"
    )
)]
trait Average {}

#[cfg_attr(has_do_not_recommend, diagnostic::do_not_recommend)]
impl<T: NativeInteger> Average for T {}
