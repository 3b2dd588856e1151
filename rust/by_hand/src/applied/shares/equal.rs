//! The traits of the iterator over instalments.

use core::iter::FusedIterator;

#[derive(Clone, Debug, PartialEq, Eq)]
struct IterInstalments;

impl<T: Integer + Copy> FusedIterator for IterInstalments<T> {}
