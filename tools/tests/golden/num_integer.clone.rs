//! A copy that is written out, and a trait of contracts alone.

use core::marker::PhantomData;
use num_traits::Num;

/// [Contract](crate::definitions::num_integer#marked)
pub struct Marked<T> {
    mark: PhantomData<T>,
}

impl<T: Num> Clone for Marked<T> {
    fn clone(&self) -> Self {
        *self
    }
}
