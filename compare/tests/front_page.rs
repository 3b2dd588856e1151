//! The results of `num-integer` and `num-rational` that pages show. Of the four calls of README.md each panics with overflow
//! checks, and without them three return a wrong number, and so does a product of four fractions. docs/DIFFERENCES.md has the
//! others.

use num_integer::{binomial, multinomial, Integer, Roots};
use num_rational::Ratio;
use std::hint::black_box;
use std::panic::{catch_unwind, UnwindSafe};

/// What the call returns, or `None` if it panics.
fn returned<T>(call: impl FnOnce() -> T + UnwindSafe) -> Option<T> {
    catch_unwind(call).ok()
}

/// The result that wraps, or `None` in a build with overflow checks, where the call panics.
fn wrapped<T>(result: T) -> Option<T> {
    returned(|| black_box(i32::MAX) + black_box(1)).map(|_| result)
}

#[test]
fn results_of_the_front_page() {
    assert_eq!(returned(|| black_box(i64::MAX).lcm(&2)), wrapped(2));
    assert_eq!(returned(|| black_box(i64::MIN).gcd(&0)), wrapped(i64::MIN));
    assert_eq!(returned(|| binomial(black_box(68_u64), 34)), wrapped(4007708145106606422));
    assert_eq!(returned(|| black_box(i64::MIN).mod_floor(&-1)), None);
}

/// 4.35 percent a year, compounded daily: the factor after so many days, or `None` if a product panics.
fn factor_after(days: usize) -> Option<Ratio<i64>> {
    let daily = Ratio::new(black_box(730087), 730000);
    returned(|| (0..days).fold(Ratio::from_integer(1), |factor, _| factor * daily))
}

/// A fraction as the page shows it.
fn decimal(factor: Ratio<i64>) -> String {
    format!("{:.6}", *factor.numer() as f64 / *factor.denom() as f64)
}

#[test]
fn four_days_of_interest() {
    assert_eq!(factor_after(3), Some(Ratio::new_raw(389156103476768503, 389017000000000000)));
    let fourth = Ratio::new_raw(-1059895768972060129, 5215014758547128320);
    assert_eq!(factor_after(4), wrapped(fourth));
    assert_eq!(decimal(factor_after(3).unwrap()), "1.000358");
    assert_eq!(decimal(fourth), "-0.203239");
}

#[test]
fn results_that_differ() {
    const MIN: i64 = i64::MIN;
    assert_eq!(returned(|| black_box(MIN).is_multiple_of(&-1)), None);
    assert_eq!(returned(|| Integer::next_multiple_of(&black_box(MIN), &-1)), None);
    assert_eq!(returned(|| black_box(MIN).lcm(&0)), wrapped(0));
    assert_eq!(returned(|| black_box(MIN).nth_root(1)), wrapped(MIN));
    assert_eq!(returned(|| black_box(MIN).extended_gcd(&1).gcd), wrapped(1));
    assert_eq!(binomial(black_box(5), -3), 1);
    assert_eq!(binomial(black_box(-5), 3), 0);
    assert_eq!(multinomial(&[black_box(2), -1]), 1);
}
