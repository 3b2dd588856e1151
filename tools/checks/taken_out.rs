//! The guards of the copy of the crate that tools/checks/guards.py makes. Each call has a number. With `7` in the variable GUARD the
//! seventh tests nothing, and with `7.2` it has the second of its nearest wrong neighbours.

extern crate std;

use crate::guards as tests;
use crate::integer_core::guards;
use crate::integer_core::{Integer, Magnitudes};
use crate::modular::several_congruences::HasCongruence;
use num_traits::Num;
use std::sync::OnceLock;

/// The number of a guard, and that of a neighbour, or 0.
fn chosen() -> (usize, usize) {
    static CHOSEN: OnceLock<(usize, usize)> = OnceLock::new();
    *CHOSEN.get_or_init(|| {
        let text = std::env::var("GUARD").unwrap_or_default();
        let (number, form) = text.split_once('.').unwrap_or((&text, "0"));
        (number.parse().unwrap_or(0), form.parse().unwrap_or(0))
    })
}

fn is_out(number: usize) -> bool {
    chosen() == (number, 0)
}

/// The number of the neighbour that a guard has in this run, or 0.
pub(crate) fn form(number: usize) -> usize {
    let (chosen, form) = chosen();
    if chosen == number {
        form
    } else {
        0
    }
}

/// At an unsigned type the largest number.
pub(crate) fn minus_one<T: Num>() -> T {
    T::zero() - T::one()
}

#[track_caller]
pub(crate) fn check(number: usize, condition: bool, reason: &'static str) {
    if !is_out(number) {
        guards::check(condition, reason);
    }
}

/// Without the test the value is one of zeros.
#[track_caller]
pub(crate) fn some<A>(number: usize, value: Option<A>, reason: &'static str) -> A {
    match value {
        // SAFETY: the values of the crate are integers and pairs of these.
        None if is_out(number) => unsafe { core::mem::zeroed() },
        value => guards::some(value, reason),
    }
}

/// Without the test the sum wraps.
#[track_caller]
pub(crate) fn sum_or<T: Integer>(number: usize, a: T, b: T, reason: &'static str) -> T {
    if is_out(number) {
        a + b
    } else {
        guards::sum_or(a, b, reason)
    }
}

/// Without the test the product wraps.
#[track_caller]
pub(crate) fn product_or<T: Integer>(number: usize, a: T, b: T, reason: &'static str) -> T {
    if is_out(number) {
        a * b
    } else {
        guards::product_or(a, b, reason)
    }
}

/// Without the test the number wraps.
#[track_caller]
pub(crate) fn number_or<T: Magnitudes>(
    number: usize,
    magnitude: T::Magnitude,
    reason: &'static str,
) -> T {
    if is_out(number) {
        T::from_magnitude(magnitude)
    } else {
        guards::number_or(magnitude, reason)
    }
}

#[track_caller]
pub(crate) fn check_pair<T: Integer>(number: usize, a: &T, b: &T, reason: &'static str) {
    if !is_out(number) {
        guards::check_pair(a, b, reason);
    }
}

#[track_caller]
pub(crate) fn check_lcm<T: Integer>(number: usize, m: &T, n: &T, reason: &'static str) {
    if !is_out(number) {
        guards::check_lcm(m, n, reason);
    }
}

#[track_caller]
pub(crate) fn check_none_negative<T: Integer>(number: usize, numbers: &[T], reason: &'static str) {
    if !is_out(number) {
        guards::check_none_negative(numbers, reason);
    }
}

#[track_caller]
pub(crate) fn check_moduli<T: Integer, C: HasCongruence<T>>(
    number: usize,
    congruences: &[C],
    reason: &'static str,
) {
    if !is_out(number) {
        crate::modular::guards::check_moduli(congruences, reason);
    }
}

#[track_caller]
pub(crate) fn check_choice(number: usize, choice: &[u64], n: u64, reason: &'static str) {
    if !is_out(number) {
        crate::applied::guards::check_choice(choice, n, reason);
    }
}

#[track_caller]
pub(crate) fn check_rank(number: usize, rank: u64, n: u64, length: usize, reason: &'static str) {
    if !is_out(number) {
        crate::applied::guards::check_rank(rank, n, length, reason);
    }
}
