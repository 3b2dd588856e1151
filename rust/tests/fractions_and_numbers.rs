//! Fractions beside an `i64`, as 0 and 1 of `num_traits`, and as floating-point numbers.

use cellarcove::ratio64::Ratio;
use num_traits::{One, Zero};
use std::panic::catch_unwind;

/// The fraction of two numbers.
fn ratio(num: i64, den: i64) -> Ratio {
    Ratio::new(num, den).expect("the reduced parts fit")
}

#[test]
fn an_integer_may_stand_on_either_side() {
    let half = ratio(1, 2);
    assert_eq!((half + 1, 1 + half, 1 + &half), (ratio(3, 2), ratio(3, 2), ratio(3, 2)));
    assert_eq!((half - 1, 1 - half), (ratio(-1, 2), half));
    assert_eq!((half * 3, 3 * half, 3 * &half), (ratio(3, 2), ratio(3, 2), ratio(3, 2)));
    assert_eq!((half / 3, 3 / half), (ratio(1, 6), Ratio::from(6i64)));
    assert!(catch_unwind(|| i64::MAX + Ratio::one()).is_err());
    assert!(catch_unwind(|| 1 / Ratio::zero()).is_err());
}

#[test]
fn fractions_compare_with_integers() {
    assert!(ratio(4, 2) == 2 && 2 == ratio(4, 2) && ratio(1, 2) != 0);
    assert!(ratio(1, 2) < 1 && 0 < ratio(1, 2) && ratio(-1, 2) > -1);
    assert!(ratio(i64::MAX, 2) < i64::MAX && i64::MIN < ratio(i64::MIN + 1, 1));
}

#[test]
fn zero_and_one() {
    let (zero, one): (Ratio, Ratio) = (Zero::zero(), One::one());
    assert!(zero.is_zero() && Zero::is_zero(&zero) && one.is_one() && !one.is_zero());
    for x in [ratio(i64::MIN, 1), ratio(-7, 3), zero, one, ratio(i64::MAX, 2), ratio(1, i64::MAX)] {
        assert_eq!((x + zero, zero + x, x * one, one * x), (x, x, x, x));
    }
}

/// The parts of a fraction, and the bits of `float(Fraction(num, den))` in Python.
static FLOATS: [(i64, i64, u64); 12] = [
    (0, 1, 0x0000000000000000),
    (1, 1, 0x3ff0000000000000),
    (-1, 3, 0xbfd5555555555555),
    (9007199254740993, 1, 0x4340000000000000),
    (9007199254740995, 1, 0x4340000000000002),
    (18014398509481985, 2, 0x4340000000000000),
    (i64::MAX, 1, 0x43e0000000000000),
    (i64::MIN, 1, 0xc3e0000000000000),
    (i64::MIN, i64::MAX, 0xbff0000000000000),
    (1, i64::MAX, 0x3c00000000000000),
    (i64::MAX - 1, i64::MAX, 0x3ff0000000000000),
    (6004799503160661, 18014398509481984, 0x3fd5555555555555),
];

#[test]
fn the_nearest_floating_point_number() {
    for &(num, den, bits) in &FLOATS {
        assert_eq!(ratio(num, den).to_f64().to_bits(), bits, "{num}/{den}");
    }
}

/// The checksum of the bits of `float(Fraction(num, den))` in Python over these fractions. `tools/tests/test_floats.py` computes it
/// again.
const OF_PYTHON: u64 = 0x43529ed32c9a29d4;

#[test]
fn floating_point_numbers_are_those_of_python() {
    let (mut state, mut sum) = (1u64, 0u64);
    let mut next = || {
        state = state.wrapping_mul(6364136223846793005).wrapping_add(1442695040888963407);
        state >> (state >> 58)
    };
    for _ in 0..100_000 {
        let (num, den) = (next() as i64, (next() >> 1) as i64);
        if let Ok(x) = Ratio::new(num, den) {
            sum = sum.wrapping_mul(31).wrapping_add(x.to_f64().to_bits());
        }
    }
    assert_eq!(sum, OF_PYTHON);
}
