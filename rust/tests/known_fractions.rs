//! Known values of the calls on fractions, most of them at the ends of `i64`, and the strings that are read as fractions.

use cellarcove::ratio64::ParseRatioError::{self, NotAFraction, TooLong};
use cellarcove::ratio64::Ratio;
use cellarcove::ratio64::RatioError::{self, NotFitting, ZeroDenominator};
use std::fmt::Debug;

/// Asserts that the check holds, and shows the row if it does not.
fn holds_at(holds: bool, row: &impl Debug) {
    assert!(holds, "at {row:?}");
}

const MIN: i64 = i64::MIN;

const MAX: i64 = i64::MAX;

/// The numerator and the denominator of a fraction.
type Parts = (i64, i64);

/// The parts of a fraction as given, and those of the reduced one, some of them the ends, 0, 1 and -1 over each other.
static REDUCED: [(Parts, Result<Parts, RatioError>); 37] = [
    ((6, -4), Ok((-3, 2))),
    ((0, -9), Ok((0, 1))),
    ((2, 4), Ok((1, 2))),
    ((-1, -2), Ok((1, 2))),
    ((42, 56), Ok((3, 4))),
    ((7, 3), Ok((7, 3))),
    ((MIN, 2), Ok((-4611686018427387904, 1))),
    ((2, MIN), Ok((-1, 4611686018427387904))),
    ((MIN, 6), Ok((-4611686018427387904, 3))),
    ((MIN, -2), Ok((4611686018427387904, 1))),
    ((3, MIN), Err(NotFitting)),
    ((MIN, -3), Err(NotFitting)),
    ((MIN, MIN), Ok((1, 1))),
    ((MIN, MAX), Ok((MIN, MAX))),
    ((MIN, 0), Err(ZeroDenominator)),
    ((MIN, 1), Ok((MIN, 1))),
    ((MIN, -1), Err(NotFitting)),
    ((MAX, MIN), Err(NotFitting)),
    ((MAX, MAX), Ok((1, 1))),
    ((MAX, 0), Err(ZeroDenominator)),
    ((MAX, 1), Ok((MAX, 1))),
    ((MAX, -1), Ok((-MAX, 1))),
    ((0, MIN), Ok((0, 1))),
    ((0, MAX), Ok((0, 1))),
    ((0, 0), Err(ZeroDenominator)),
    ((0, 1), Ok((0, 1))),
    ((0, -1), Ok((0, 1))),
    ((1, MIN), Err(NotFitting)),
    ((1, MAX), Ok((1, MAX))),
    ((1, 0), Err(ZeroDenominator)),
    ((1, 1), Ok((1, 1))),
    ((1, -1), Ok((-1, 1))),
    ((-1, MIN), Err(NotFitting)),
    ((-1, MAX), Ok((-1, MAX))),
    ((-1, 0), Err(ZeroDenominator)),
    ((-1, 1), Ok((-1, 1))),
    ((-1, -1), Ok((1, 1))),
];

/// Fractions, each less than all that come after it.
static ASCENDING: [Parts; 15] = [
    (MIN, 1),
    (-MAX, 1),
    (MIN, MAX),
    (-1, 1),
    (-MAX + 1, MAX),
    (-1, 2),
    (-1, MAX),
    (0, 1),
    (1, MAX),
    (1, 3),
    (1, 2),
    (MAX - 1, MAX),
    (1, 1),
    (MAX, MAX - 1),
    (MAX, 1),
];

/// The fraction of two numbers.
fn ratio((num, den): Parts) -> Ratio {
    Ratio::new(num, den).expect("the reduced parts fit")
}

/// The parts of a result.
fn parts(answer: Result<Ratio, RatioError>) -> Result<Parts, RatioError> {
    let x = answer?;
    Ok((x.num(), x.den()))
}

#[test]
fn reduced_parts() {
    for &((num, den), expected) in &REDUCED {
        let found = parts(Ratio::new(num, den));
        holds_at(found == expected, &("new", num, den));
    }
    for number in [MIN, -MAX, -12, -1, 0, 1, 7, MAX] {
        let x = Ratio::from(number);
        holds_at((x.num(), x.den()) == (number, 1), &("from", number));
    }
}

#[test]
fn ascending() {
    for (i, &first) in ASCENDING.iter().enumerate() {
        for (j, &second) in ASCENDING.iter().enumerate() {
            let (x, y) = (ratio(first), ratio(second));
            let found = (x.cmp(&y), x < y);
            holds_at(found == (i.cmp(&j), i < j), &("cmp", first, second));
        }
    }
}

/// The sign of an operation, the parts of its operands, and those of its result.
static ANSWERS: [(char, Parts, Parts, Result<Parts, RatioError>); 24] = [
    ('+', (1, 6), (1, 3), Ok((1, 2))),
    ('+', (1, 2), (-1, 2), Ok((0, 1))),
    ('+', (MAX, 1), (1, 1), Err(NotFitting)),
    ('+', (MAX, 1), (MIN, 1), Ok((-1, 1))),
    ('+', (MIN, 1), (MIN, 1), Err(NotFitting)),
    ('+', (1, MAX), (-1, MAX), Ok((0, 1))),
    ('+', (1, MAX), (1, MAX - 1), Err(NotFitting)),
    (
        '+',
        (1, 4611686018427387904),
        (1, 4611686018427387904),
        Ok((1, 2305843009213693952)),
    ),
    ('-', (1, 2), (1, 3), Ok((1, 6))),
    ('-', (MIN, 1), (1, 1), Err(NotFitting)),
    ('-', (MIN, 1), (MIN, 1), Ok((0, 1))),
    ('-', (MIN, MAX), (1, MAX), Err(NotFitting)),
    ('*', (2, 3), (3, 4), Ok((1, 2))),
    ('*', (MAX, 2), (2, MAX), Ok((1, 1))),
    ('*', (MIN, 1), (MIN, 1), Err(NotFitting)),
    ('*', (MIN, MAX), (MAX, 1), Ok((MIN, 1))),
    ('*', (MIN, 1), (0, 1), Ok((0, 1))),
    ('/', (-1, 2), (-3, 4), Ok((2, 3))),
    ('/', (1, 2), (0, 1), Err(ZeroDenominator)),
    ('/', (0, 1), (0, 1), Err(ZeroDenominator)),
    ('/', (MIN, 1), (-1, 1), Err(NotFitting)),
    ('/', (MIN, 1), (MIN, 1), Ok((1, 1))),
    ('/', (1, 1), (MIN, 1), Err(NotFitting)),
    ('/', (0, 1), (MIN, 1), Ok((0, 1))),
];

/// The result of the operation of a sign.
fn answer(sign: char, x: &Ratio, y: &Ratio) -> Result<Ratio, RatioError> {
    match sign {
        '+' => x.checked_add(y),
        '-' => x.checked_sub(y),
        '*' => x.checked_mul(y),
        _ => x.checked_div(y),
    }
}

#[test]
fn answers_of_operations() {
    for &(sign, first, second, expected) in &ANSWERS {
        let (x, y) = (ratio(first), ratio(second));
        let found = parts(answer(sign, &x, &y));
        holds_at(found == expected, &(first, sign, second));
    }
}

/// The numbers that `cellarcove.h` has for the errors.
#[test]
fn numbers_of_errors() {
    let numbers = [ZeroDenominator, NotFitting].map(|error| error.number());
    assert_eq!(numbers, [1, 2]);
}

/// One more than the fraction, and whether that is less than 3.
fn plus_one(x: &Ratio) -> Result<(Ratio, bool), RatioError> {
    let sum = x.checked_add(&Ratio::from(1))?; // 5/3 where x is 2/3
    Ok((sum, sum < Ratio::from(3)))
}

#[test]
fn sums_with_one() {
    for (given, sum, is_less) in [
        ((2, 3), (5, 3), true),
        ((-1, 2), (1, 2), true),
        ((2, 1), (3, 1), false),
        ((MIN, 1), (-MAX, 1), true),
    ] {
        let found = plus_one(&ratio(given));
        let is_sum = found == Ok((ratio(sum), is_less));
        holds_at(is_sum, &("plus_one", given));
    }
}

#[test]
fn sum_with_one_that_does_not_fit() {
    let refused = plus_one(&ratio((MAX, 1)));
    holds_at(refused == Err(NotFitting), &("plus_one", MAX));
}

/// Half of the largest number, rounded down.
const HALF: i64 = MAX / 2;

/// The parts of a fraction, and what it is rounded to down and up.
static DOWN_AND_UP: [(Parts, (i64, i64)); 10] = [
    ((6, -4), (-2, -1)),
    ((7, 2), (3, 4)),
    ((-7, 2), (-4, -3)),
    ((12, 4), (3, 3)),
    ((0, -9), (0, 0)),
    ((2, MIN), (-1, 0)),
    ((1, MAX), (0, 1)),
    ((MIN, 1), (MIN, MIN)),
    ((MIN, MAX), (-2, -1)),
    ((MAX, 2), (HALF, HALF + 1)),
];

/// The parts of a fraction, what it is rounded to toward 0 and to the nearest number, and the
/// parts of what the first leaves.
static TOWARD_0: [(Parts, (i64, i64), Parts); 17] = [
    ((3, 2), (1, 2), (1, 2)),
    ((-3, 2), (-1, -2), (-1, 2)),
    ((5, 2), (2, 3), (1, 2)),
    ((1, 2), (0, 1), (1, 2)),
    ((-1, 2), (0, -1), (-1, 2)),
    ((1, 3), (0, 0), (1, 3)),
    ((-2, 3), (0, -1), (-2, 3)),
    ((0, 1), (0, 0), (0, 1)),
    ((MIN, 1), (MIN, MIN), (0, 1)),
    ((MAX, 1), (MAX, MAX), (0, 1)),
    ((MIN, MAX), (-1, -1), (-1, MAX)),
    ((MAX, 2), (HALF, HALF + 1), (1, 2)),
    ((-MAX, 2), (-HALF, -HALF - 1), (-1, 2)),
    ((1, MAX), (0, 0), (1, MAX)),
    ((1 - MAX, MAX), (0, -1), (1 - MAX, MAX)),
    ((HALF, MAX), (0, 0), (HALF, MAX)),
    ((HALF + 1, MAX), (0, 1), (HALF + 1, MAX)),
];

#[test]
fn rounded_numbers() {
    for &(given, expected) in &DOWN_AND_UP {
        let x = ratio(given);
        holds_at((x.floor(), x.ceil()) == expected, &("floor", given));
    }
    for &(given, expected, rest) in &TOWARD_0 {
        let x = ratio(given);
        holds_at((x.trunc(), x.round()) == expected, &("trunc", given));
        holds_at(x.fract() == ratio(rest), &("fract", given));
    }
}

/// The parts of a fraction, and of its negation, its magnitude and its reciprocal, or `None` for an error.
const TURNED: [(Parts, [Option<Parts>; 3]); 8] = [
    ((0, 1), [Some((0, 1)), Some((0, 1)), None]),
    ((-3, 2), [Some((3, 2)), Some((3, 2)), Some((-2, 3))]),
    ((-2, 3), [Some((2, 3)), Some((2, 3)), Some((-3, 2))]),
    ((MAX, 2), [Some((-MAX, 2)), Some((MAX, 2)), Some((2, MAX))]),
    ((-MAX, 1), [Some((MAX, 1)), Some((MAX, 1)), Some((-1, MAX))]),
    ((MIN, 1), [None, None, None]),
    ((MIN, 3), [None, None, None]),
    ((MIN, MAX), [None, None, None]),
];

/// Only the reciprocal of 0 is an error for its denominator.
#[test]
fn turned_fractions() {
    for &(given, [negated, absolute, inverted]) in &TURNED {
        let x = ratio(given);
        let refusal = if given == (0, 1) {
            ZeroDenominator
        } else {
            NotFitting
        };
        let (neg, abs) = (parts(x.checked_neg()), parts(x.checked_abs()));
        let recip = parts(x.checked_recip());
        holds_at(neg == negated.ok_or(NotFitting), &("neg", given));
        holds_at(abs == absolute.ok_or(NotFitting), &("abs", given));
        holds_at(recip == inverted.ok_or(refusal), &("recip", given));
    }
}

/// An exponent, the parts of a fraction, and those of its power.
static POWERS: [(i32, Parts, Result<Parts, RatioError>); 23] = [
    (2, (2, 3), Ok((4, 9))),
    (-3, (-2, 3), Ok((-27, 8))),
    (0, (0, 1), Ok((1, 1))),
    (0, (MIN, 1), Ok((1, 1))),
    (1, (MIN, MAX), Ok((MIN, MAX))),
    (-1, (0, 1), Err(ZeroDenominator)),
    (-1, (MIN, 1), Err(NotFitting)),
    (62, (2, 1), Ok((4611686018427387904, 1))),
    (63, (2, 1), Err(NotFitting)),
    (63, (-2, 1), Ok((MIN, 1))),
    (64, (-2, 1), Err(NotFitting)),
    (63, (-1, 2), Err(NotFitting)),
    (-63, (-1, 2), Ok((MIN, 1))),
    (2, (3037000499, 1), Ok((9223372030926249001, 1))),
    (2, (1, 3037000500), Err(NotFitting)),
    (i32::MAX, (2, 1), Err(NotFitting)),
    (i32::MAX, (0, 1), Ok((0, 1))),
    (i32::MIN, (0, 1), Err(ZeroDenominator)),
    (i32::MAX, (1, 1), Ok((1, 1))),
    (i32::MIN, (1, 1), Ok((1, 1))),
    (i32::MAX, (-1, 1), Ok((-1, 1))),
    (i32::MIN, (-1, 1), Ok((1, 1))),
    (i32::MIN, (1, 2), Err(NotFitting)),
];

#[test]
fn powers_of_fractions() {
    for &(exponent, given, expected) in &POWERS {
        let found = parts(ratio(given).checked_pow(exponent));
        holds_at(found == expected, &("pow", given, exponent));
    }
}

type Signs = (bool, bool, bool, bool);

/// The parts of a fraction, its sign, and whether it is positive, negative, 0, and an integer.
static SIGNS: [(Parts, i64, Signs); 10] = [
    ((MIN, 1), -1, (false, true, false, true)),
    ((MIN, MAX), -1, (false, true, false, false)),
    ((-3, 2), -1, (false, true, false, false)),
    ((-1, MAX), -1, (false, true, false, false)),
    ((0, 1), 0, (false, false, true, true)),
    ((1, MAX), 1, (true, false, false, false)),
    ((1, 2), 1, (true, false, false, false)),
    ((1, 1), 1, (true, false, false, true)),
    ((MAX, MAX - 1), 1, (true, false, false, false)),
    ((MAX, 1), 1, (true, false, false, true)),
];

/// Whether a fraction is positive, negative, 0, and an integer.
fn signs_of(x: &Ratio) -> (bool, bool, bool, bool) {
    (
        x.is_positive(),
        x.is_negative(),
        x.is_zero(),
        x.is_integer(),
    )
}

#[test]
fn signs() {
    for &(given, sign, expected) in &SIGNS {
        let x = ratio(given);
        holds_at(signs_of(&x) == expected, &("signs", given));
        holds_at(x.signum() == Ratio::from(sign), &("signum", given));
    }
}

/// The parts of a fraction and a number, and their product rounded down, up and to the nearest.
type Row = (Parts, i64, (Option<i64>, Option<i64>, Option<i64>));

static TIMES: [Row; 29] = [
    ((2, 3), 100, (Some(66), Some(67), Some(67))),
    ((2, 3), -100, (Some(-67), Some(-66), Some(-67))),
    ((1, 3), 100, (Some(33), Some(34), Some(33))),
    ((1, 2), 3, (Some(1), Some(2), Some(2))),
    ((1, 2), -3, (Some(-2), Some(-1), Some(-2))),
    ((-1, 2), 3, (Some(-2), Some(-1), Some(-2))),
    ((7, 1), 6, (Some(42), Some(42), Some(42))),
    ((6, 4), 100, (Some(150), Some(150), Some(150))),
    ((3, 4), 125, (Some(93), Some(94), Some(94))),
    (
        (3, 4),
        MAX,
        (
            Some(6917529027641081855),
            Some(6917529027641081856),
            Some(6917529027641081855),
        ),
    ),
    ((4, 3), MAX, (None, None, None)),
    ((5, 3), 0, (Some(0), Some(0), Some(0))),
    ((0, 1), MIN, (Some(0), Some(0), Some(0))),
    (
        (2, 3),
        MAX,
        (
            Some(6148914691236517204),
            Some(6148914691236517205),
            Some(6148914691236517205),
        ),
    ),
    ((1, 1), MIN, (Some(MIN), Some(MIN), Some(MIN))),
    ((-1, 1), MIN, (None, None, None)),
    ((-1, 1), MAX, (Some(-MAX), Some(-MAX), Some(-MAX))),
    ((MIN, 1), MIN, (None, None, None)),
    ((MIN, 1), -1, (None, None, None)),
    ((MIN, MAX), MAX, (Some(MIN), Some(MIN), Some(MIN))),
    ((MAX, 2), 2, (Some(MAX), Some(MAX), Some(MAX))),
    ((MAX, MAX - 1), MAX, (None, None, None)),
    ((MAX, MAX - 1), MAX - 1, (Some(MAX), Some(MAX), Some(MAX))),
    (
        (MAX, MAX - 1),
        1 - MAX,
        (Some(-MAX), Some(-MAX), Some(-MAX)),
    ),
    ((3, 2), 6148914691236517205, (Some(MAX), None, None)),
    (
        (-3, 2),
        6148914691236517205,
        (Some(MIN), Some(-MAX), Some(MIN)),
    ),
    ((-3, 2), 6148914691236517206, (None, None, None)),
    ((274177, 2), -67280421310721, (None, Some(MIN), None)),
    // a third less than the smallest number
    ((25, 3), -1106804644422573097, (None, Some(MIN), Some(MIN))),
];

/// The parts of a fraction and a number, and their product rounded to the nearest, half to even, by the fractions of Python.
static EVEN_TIMES: [(Parts, i64, Option<i64>); 7] = [
    ((25, 3), -1106804644422573097, Some(MIN)),
    ((-25, 3), 1106804644422573097, Some(MIN)),
    ((274177, 2), -67280421310721, Some(MIN)),
    ((274177, 2), 67280421310721, None),
    ((3, 2), 6148914691236517205, None),
    ((-3, 2), 6148914691236517205, Some(MIN)),
    ((-3, 2), 6148914691236517206, None),
];

#[test]
fn whole_numbers_times() {
    for &(given, n, expected) in &TIMES {
        let x = ratio(given);
        let found = (x.floor_times(n), x.ceil_times(n), x.round_times(n));
        holds_at(found == expected, &("times", given, n));
    }
    for &(given, n, expected) in &EVEN_TIMES {
        let found = ratio(given).round_even_times(n);
        holds_at(found == expected, &("round_even_times", given, n));
    }
}

/// The parts of a fraction, a limit, and the parts of the nearest fraction.
static LIMITED: [(Parts, i64, Parts); 15] = [
    ((3141592653589793, 1000000000000000), 10, (22, 7)),
    ((3141592653589793, 1000000000000000), 100, (311, 99)),
    ((3141592653589793, 1000000000000000), 1000, (355, 113)),
    ((4321, 8765), 10000, (4321, 8765)),
    ((3, 10), 5, (1, 3)),
    ((3, 2), 1, (1, 1)),
    ((-3, 2), 1, (-2, 1)),
    ((-1, 3), 2, (-1, 2)),
    ((1, 100), 50, (0, 1)),
    ((0, 1), 1, (0, 1)),
    ((MAX, 2), 1, (4611686018427387903, 1)),
    ((MIN, 3), 1, (-3074457345618258603, 1)),
    ((1, MAX), MAX - 1, (1, MAX - 1)),
    ((MIN, MAX), MAX - 1, (-MAX, MAX - 1)),
    ((MIN, 1), MAX, (MIN, 1)),
];

#[test]
fn nearest_fractions() {
    for &(given, max, expected) in &LIMITED {
        holds_at(max > 0, &max);
        let nearest = ratio(given).limit_denominator(max);
        let found = (nearest.num(), nearest.den());
        holds_at(found == expected, &("limit_denominator", given, max));
    }
}

/// The parts of a fraction, a limit on both parts, and the parts of the nearest fraction. Python's `Fraction` found them by trial: for each
/// larger part up to the limit, the two smaller parts beside the fraction.
static BOTH_LIMITED: [(Parts, i64, Parts); 25] = [
    ((314159, 100000), 120, (22, 7)),
    ((314159, 100000), 355, (355, 113)),
    ((100000, 314159), 120, (7, 22)),
    ((-314159, 100000), 127, (-22, 7)),
    ((3, 10), 5, (1, 3)),
    ((10, 3), 5, (3, 1)),
    ((3, 2), 1, (1, 1)),
    ((3, 2), 2, (1, 1)),
    ((-3, 2), 2, (-1, 1)),
    ((-1, 2), 1, (0, 1)),
    ((1, 100), 50, (0, 1)),
    ((100, 1), 50, (50, 1)),
    ((0, 1), 1, (0, 1)),
    ((8, 3), 7, (5, 2)),
    ((7, 5), 6, (4, 3)),
    ((-7, 5), 7, (-7, 5)),
    ((MAX, 2), 1000, (1000, 1)),
    ((MIN, 3), 1000, (-1000, 1)),
    ((MIN, 1), 5, (-5, 1)),
    ((1, MAX), 1000, (0, 1)),
    ((2718281828, 1000000000), 1000, (878, 323)),
    ((MAX, MAX - 1), 1000, (1, 1)),
    ((MIN, MAX), 1000, (-1, 1)),
    ((1618033988, 1000000000), 233, (233, 144)),
    ((1618033988, 1000000000), 232, (144, 89)),
];

#[test]
fn nearest_parts() {
    for &(given, max, expected) in &BOTH_LIMITED {
        holds_at(max > 0, &max);
        let nearest = ratio(given).limit_parts(max);
        let found = (nearest.num(), nearest.den());
        holds_at(found == expected, &("limit_parts", given, max));
    }
}

/// A string, and the parts of the fraction that it is read as. The last rows have parts of 37, 38, 39 and 40 digits.
static READ: [(&str, Result<Parts, ParseRatioError>); 35] = [
    ("3", Ok((3, 1))),
    ("-3/2", Ok((-3, 2))),
    ("6/-4", Ok((-3, 2))),
    ("-6/-4", Ok((3, 2))),
    ("-0", Ok((0, 1))),
    ("0/5", Ok((0, 1))),
    ("0/-5", Ok((0, 1))),
    ("007/014", Ok((1, 2))),
    ("9223372036854775807", Ok((MAX, 1))),
    ("-9223372036854775808", Ok((MIN, 1))),
    ("-9223372036854775808/9223372036854775807", Ok((MIN, MAX))),
    ("18446744073709551614/2", Ok((MAX, 1))),
    ("2/18446744073709551614", Ok((1, MAX))),
    ("-18446744073709551616/2", Ok((MIN, 1))),
    ("9223372036854775808", Err(ParseRatioError::NotFitting)),
    ("9223372036854775808/-1", Ok((MIN, 1))),
    ("-9223372036854775809", Err(ParseRatioError::NotFitting)),
    ("1/9223372036854775808", Err(ParseRatioError::NotFitting)),
    ("1/-9223372036854775808", Err(ParseRatioError::NotFitting)),
    ("18446744073709551616/2", Err(ParseRatioError::NotFitting)),
    ("1/0", Err(ParseRatioError::ZeroDenominator)),
    ("0/-0", Err(ParseRatioError::ZeroDenominator)),
    (
        "99999999999999999999/00",
        Err(ParseRatioError::ZeroDenominator),
    ),
    (
        "99999999999999999999999999999999999999/99999999999999999999999999999999999999",
        Ok((1, 1)),
    ),
    (
        "-99999999999999999999999999999999999999/33333333333333333333333333333333333333",
        Ok((-3, 1)),
    ),
    (
        "1/99999999999999999999999999999999999999",
        Err(ParseRatioError::NotFitting),
    ),
    ("0/99999999999999999999999999999999999999", Ok((0, 1))),
    (
        "00099999999999999999999999999999999999999/99999999999999999999999999999999999999",
        Ok((1, 1)),
    ),
    ("100000000000000000000000000000000000000", Err(TooLong)),
    ("-100000000000000000000000000000000000000", Err(TooLong)),
    (
        "0000000000000000000000000000000000000000000000000012/8",
        Ok((3, 2)),
    ),
    ("0/100000000000000000000000000000000000000", Err(TooLong)),
    ("999999999999999999999999999999999999999/3", Err(TooLong)),
    ("-170141183460469231731687303715884105729/0", Err(TooLong)),
    (
        "100000000000000000000000000000000000000/x",
        Err(NotAFraction),
    ),
];

/// Strings that are no fractions.
static OTHERS: [&str; 22] = [
    "", "/", "1/", "/1", "-", "-/1", "1/-", " 1", "1 ", "1 /2", "1/ 2", "+1", "1/+2", "--1",
    "1/--2", "1//2", "1/2/3", "1/2/", "1.5", "0x1", "a", "1/b",
];

/// The parts of a fraction, and its string.
static TEXTS: [(Parts, &str); 6] = [
    ((6, -4), "-3/2"),
    ((12, 4), "3"),
    ((0, -9), "0"),
    ((-5, 1), "-5"),
    ((MIN, MAX), "-9223372036854775808/9223372036854775807"),
    ((MIN, 1), "-9223372036854775808"),
];

/// The parts of the fraction that the string is read as.
fn read(text: &str) -> Result<Parts, ParseRatioError> {
    let x: Ratio = text.parse()?;
    Ok((x.num(), x.den()))
}

#[test]
fn texts_read() {
    for &(text, expected) in &READ {
        holds_at(read(text) == expected, &("parse", text));
    }
    for &text in &OTHERS {
        holds_at(read(text) == Err(NotAFraction), &("parse", text));
    }
    for text in ["\u{661}", "1\u{2044}2"] {
        holds_at(read(text) == Err(NotAFraction), &("parse", text));
    }
}

#[test]
fn texts_printed() {
    for &(given, text) in &TEXTS {
        holds_at(ratio(given).to_string() == text, &("fmt", given));
    }
}
