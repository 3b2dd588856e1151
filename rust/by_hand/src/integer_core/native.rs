//! What the compiler says of a type that is no `Integer`, where it names this trait.

#[cfg_attr(
    has_diagnostic,
    diagnostic::on_unimplemented(
        message = "`{Self}` does not implement `Integer` of cellarcove",
        note = "the built-in integer types implement it, and a type of your own by hand",
        note = "`BigInt` implements it if cellarcove's package `num-integer` is in its place:",
        note = "write `num-integer = {{ path = .. }}` below `[patch.crates-io]` of the workspace"
    )
)]
trait Native {}
