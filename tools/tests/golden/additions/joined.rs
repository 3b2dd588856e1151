//! Made.

use crate::one;
use crate::two;

/// Returns the sum.
#[track_caller]
pub fn sum(a: u8) -> u8 {
    a + two()
}

pub fn low() {}

impl Row {
    /// Panics.
    fn next(&self) {
        panic!()
    }

    fn last(&self) {}

// The first one.
    fn first(&self) {}
}

#[cfg_attr(x, y)]
impl<T: Wide + Fine> Low for T {
    fn lowest(&self) {}
}

#[derive(Hash)]
enum Place {
    First,
}


/// Returns nothing.
pub fn high() {}

impl Clone for Row {}
