//! What is added: `must_use` of public calls that only return, and a lint for a parameter that clauses alone name. Attributes stay.

#[doc(hidden)]
#[cfg_attr(has_diagnostic, diagnostic::on_unimplemented(message = "no half"))]
pub trait Halved {
    #[must_use]
    fn half(&self) -> Self;

    fn halve(&mut self);
}

#[allow(clippy::manual_div_ceil)] // as it was proved
fn half(x: u64, limit: u64) -> u64 {
    #[allow(unused)]
    let y = 1;
    x / 2
}

#[must_use]
pub fn parsed(x: u64) -> Option<u64> {
    Some(x)
}

#[must_use]
pub fn twice(x: u64) -> u64 {
    x + x
}
