//! By hand.

use crate::two;

#[track_caller]
pub fn sum(a: u8) -> u8 {
    a + two()
}

/// Returns nothing.
pub fn high() {}

impl Row {
    /// Panics.
    fn next(&self) {
        panic!()
    }

    // The first one.
    fn first(&self) {}
}

impl Clone for Row {}

#[cfg_attr(x, y)]
impl<T: Wide + Fine> Low for T {}

#[derive(Hash)]
enum Place {}
