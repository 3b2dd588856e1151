//! What an iterator of the crate has beside `next`, and its traits.

use core::iter::FusedIterator;

#[derive(Clone, Debug, PartialEq, Eq)]
struct IterBinomial;

impl<T: Integer + Copy> Iterator for IterBinomial<T> {
    #[inline]
    fn size_hint(&self) -> (usize, Option<usize>) {
        if self.n < self.k {
            return (0, Some(0));
        }
        match at_usize(self.n - self.k).and_then(|more| more.checked_add(1)) {
            Some(count) => (count, Some(count)),
            None => (usize::MAX, None),
        }
    }
}

impl<T: Integer + Copy> FusedIterator for IterBinomial<T> {}

macro_rules! exact_size {
    ($($Type:ty)*) => {$(
        impl ExactSizeIterator for IterBinomial<$Type> {}
    )*};
}

exact_size!(u8 i8 u16 i16 i32);
// a row of the largest number of `u32` has 2^32 items
#[cfg(target_pointer_width = "64")]
exact_size!(u32);

/// Returns a number that is not negative as a `usize`, if it fits. Only if it is above 1 has its type a 2.
fn at_usize<T: Integer + Copy>(mut x: T) -> Option<usize> {
    let (mut value, mut unit) = (0usize, Some(1usize));
    while !x.is_zero() {
        if x.is_odd() {
            value = value.checked_add(unit?)?;
        }
        unit = unit.and_then(|unit| unit.checked_mul(2));
        x = if x.is_one() { T::zero() } else { x / (T::one() + T::one()) };
    }
    Some(value)
}
