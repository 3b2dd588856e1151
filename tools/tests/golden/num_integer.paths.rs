//! First words of paths, the traits of contracts alone, errors, and what formats.

use crate::errors::Error;
use crate::integer_core::Integer;
use crate::least as low;
use core::cmp::Ordering;
use core::fmt;
use num_traits::Num;

/// An error.
pub struct NoHalf;

impl Error for NoHalf {}

impl fmt::Display for NoHalf {
    fn fmt(&self, f: &mut fmt::Formatter<'_>) -> fmt::Result {
        write_part(f)
    }
}

fn write_part<W: fmt::Write>(f: &mut W) -> fmt::Result {
    write!(f, "no half")
}

#[must_use]
pub fn least<T: Num>(x: u64) -> u64 {
    core::cmp::min(x, crate::integer_core::operators::one())
}
