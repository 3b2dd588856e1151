//! Made.

use crate::one;

/// Returns the sum.
#[must_use]
pub fn sum(a: u8) -> u8 {
    a + one()
}

pub fn low() {}

impl Row {
    fn next(&self) {}

    fn last(&self) {}
}

impl<T: Wide> Low for T {
    fn lowest(&self) {}
}

enum Place {
    First,
}
