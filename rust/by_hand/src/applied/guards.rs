//! The guards of choices and ranks.

use crate::checked;
pub(crate) use crate::integer_core::guards::check;

/// Panics if the numbers of a choice do not increase, or one is not below `n`.
#[track_caller]
pub(crate) fn check_choice(choice: &[u64], n: u64, reason: &'static str) {
    let increases = choice.windows(2).all(|pair| pair[0] < pair[1]);
    check(increases && choice.last().map_or(true, |last| *last < n), reason);
}

/// Panics if no choice of so many numbers below `n` has the rank.
#[track_caller]
pub(crate) fn check_rank(rank: u64, n: u64, length: usize, reason: &'static str) {
    let choices = checked::binomial(n, length as u64);
    check(choices.map_or(true, |choices| rank < choices), reason);
}
