//! What the compiler says of a type without products modulo a number.

#[cfg_attr(
    has_diagnostic,
    diagnostic::on_unimplemented(
        message = "`{Self}` does not implement `Modular` of cellarcove",
        note = "the built-in integer types implement it; generic code has the bound `T: Modular`",
        note = "your own type, if it is `Copy`, implements no method: `impl Modular for Mine {{}}`"
    )
)]
trait Modular {}
