//! The operators that panic if the result does not fit, in debug and in release.

use crate::integer_core::guards::Reason;
use crate::integer_core::Integer;

#[inline]
#[track_caller]
#[must_use]
pub fn sum<T: Integer>(a: T, b: T) -> T {
    a.exact_sum(b, Reason("attempt to add with overflow"))
}

#[inline]
#[track_caller]
#[must_use]
pub fn difference<T: Integer>(a: T, b: T) -> T {
    a.exact_difference(b, Reason("attempt to subtract with overflow"))
}

#[inline]
#[track_caller]
#[must_use]
pub fn product<T: Integer>(a: T, b: T) -> T {
    a.exact_product(b, Reason("attempt to multiply with overflow"))
}

#[inline]
#[track_caller]
#[must_use]
pub fn successor<T: Integer>(a: T) -> T {
    sum(a, one())
}

#[inline]
#[track_caller]
#[must_use]
pub fn predecessor<T: Integer>(a: T) -> T {
    difference(a, one())
}

#[inline]
#[track_caller]
#[must_use]
pub fn negated<T: Integer>(a: T) -> T {
    zero::<T>().exact_difference(a, Reason("attempt to negate with overflow"))
}
