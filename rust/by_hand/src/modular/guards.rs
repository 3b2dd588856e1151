//! The guard of several congruences.

use crate::integer_core::guards::check;
use crate::modular::several_congruences::HasCongruence;
use crate::Integer;

/// Panics if a modulus is not positive.
#[inline]
#[track_caller]
pub(crate) fn check_moduli<T: Integer, C: HasCongruence<T>>(
    congruences: &[C],
    reason: &'static str,
) {
    let is_positive = |congruence: &C| congruence.congruence().modulus > T::zero();
    check(congruences.iter().all(is_positive), reason);
}
