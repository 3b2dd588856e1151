//! What panics, with its reason and the place of the first call of this crate. In Rattle these functions test nothing, since each call of
//! them is proved to hold; here they test it.

use crate::integer_core::native::{Magnitudes, Native};
use crate::integer_core::Integer;

/// Why a hidden method of `Integer` panics. No other crate can make one or name the type, so no
/// other crate calls these methods.
///
/// ```compile_fail
/// use cellarcove::Integer;
///
/// 1u8.exact_sum(2, "the sum does not fit");
/// ```
///
/// Nor does it call what the crate has of a built-in type beside the public traits:
///
/// ```compile_fail
/// fn magnitude<T: cellarcove::NativeInteger>(x: T) -> T::Magnitude {
///     x.magnitude()
/// }
/// ```
///
/// ```compile_fail
/// fn from_magnitude<T: cellarcove::NativeInteger>(magnitude: T::Magnitude) -> T {
///     T::from_magnitude(magnitude)
/// }
/// ```
///
/// ```compile_fail
/// fn twos<T: cellarcove::NativeInteger>(magnitude: T::Magnitude) -> u32 {
///     magnitude.odd_part().1
/// }
/// ```
///
/// These it can:
///
/// ```
/// fn leading_zeros<T: cellarcove::NativeInteger>(x: T) -> u32 {
///     x.leading_zeros()
/// }
///
/// fn same<T: cellarcove::NativeInteger>(magnitude: T::Magnitude) -> T::Magnitude {
///     magnitude
/// }
///
/// assert_eq!((leading_zeros(1u8), same::<i8>(5)), (7, 5));
/// ```
#[derive(Clone, Copy, Debug)]
pub struct Reason(pub(crate) &'static str);

/// Panics with the reason.
#[cold]
#[inline(never)]
#[track_caller]
pub(crate) const fn refuse(reason: &'static str) -> ! {
    panic!("{}", reason) // a `const fn` takes no other form
}

/// Panics if the condition does not hold.
#[inline]
#[track_caller]
pub(crate) const fn check(condition: bool, reason: &'static str) {
    if !condition {
        refuse(reason)
    }
}

/// Returns the value, or panics if there is none.
#[inline]
#[track_caller]
pub(crate) fn some<A>(value: Option<A>, reason: &'static str) -> A {
    match value {
        Some(value) => value,
        None => refuse(reason),
    }
}

/// Returns `a + b`, or panics if the sum does not fit.
#[inline]
#[track_caller]
pub(crate) fn sum_or<T: Integer>(a: T, b: T, reason: &'static str) -> T {
    a.exact_sum(b, Reason(reason))
}

/// Returns `a * b`, or panics if the product does not fit.
#[inline]
#[track_caller]
pub(crate) fn product_or<T: Integer>(a: T, b: T, reason: &'static str) -> T {
    a.exact_product(b, Reason(reason))
}

/// Returns the number with this magnitude, or panics if it does not fit.
#[inline]
#[track_caller]
pub(crate) fn number_or<T: Native>(magnitude: T::Magnitude, reason: &'static str) -> T {
    let number = T::from_magnitude(magnitude);
    check(
        number >= T::zero() && number.magnitude() == magnitude,
        reason,
    );
    number
}

/// Panics, at a built-in type, if the greatest common divisor or every pair of coefficients does not fit.
#[inline]
#[track_caller]
pub(crate) fn check_pair<T: Integer>(a: &T, b: &T, reason: &'static str) {
    a.expect_pair(b, Reason(reason));
}

/// Panics, at a built-in type, if the least common multiple of two numbers above 0 does not fit.
#[inline]
#[track_caller]
pub(crate) fn check_lcm<T: Integer>(m: &T, n: &T, reason: &'static str) {
    m.expect_lcm(n, Reason(reason));
}

/// Panics if a number is negative.
#[inline]
#[track_caller]
pub(crate) fn check_none_negative<T: Integer>(numbers: &[T], reason: &'static str) {
    check(numbers.iter().all(|x| *x >= T::zero()), reason);
}
