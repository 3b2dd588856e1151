//! Types of bounded integers, as their users write them: percents, minutes of a day, amounts in cents, and all of `i64` but its
//! smallest number.

use cellarcove::bounded_integers::{Bounded, BoundedError, Percent, Range, SignedRange};
use cellarcove::modular::{power_modulo, product_modulo, residue};
use cellarcove::{binomial, checked, nth_root, sqrt, Average, Fits, Integer};
use num_traits::{Num, One, Signed, Zero};
use std::collections::HashSet;
use std::panic::{catch_unwind, UnwindSafe};

struct MinutesRange;

impl Range for MinutesRange {
    const LOW: i64 = 0;
    const HIGH: i64 = 1439;
}

type Minutes = Bounded<MinutesRange>;

struct CentsRange;

impl Range for CentsRange {
    const LOW: i64 = -1_000_000_000_000;
    const HIGH: i64 = 1_000_000_000_000;
}

impl SignedRange for CentsRange {}

type Cents = Bounded<CentsRange>;

struct WideRange;

impl Range for WideRange {
    const LOW: i64 = -i64::MAX;
    const HIGH: i64 = i64::MAX;
}

impl SignedRange for WideRange {}

type Wide = Bounded<WideRange>;

/// From -8 to 7, the range whose `LOW` is `-HIGH - 1`.
struct NibbleRange;

impl Range for NibbleRange {
    const LOW: i64 = -8;
    const HIGH: i64 = 7;
}

type Nibble = Bounded<NibbleRange>;

/// What a call panics with.
fn reason<T>(call: impl FnOnce() -> T + UnwindSafe) -> String {
    let payload = catch_unwind(call).err().expect("a panic");
    let text = payload.downcast_ref::<&str>().map(ToString::to_string);
    text.or_else(|| payload.downcast_ref::<String>().cloned())
        .expect("a text")
}

#[test]
fn a_result_out_of_range_is_a_panic_or_none() {
    let (most, one) = (Percent::new(100), Percent::one());
    let reasons = [
        reason(move || most + one),
        reason(move || one - most),
        reason(move || most * most),
        reason(|| Percent::new(101)),
        reason(|| Percent::new(-1)),
        reason(|| Minutes::new(1439) + Minutes::one()),
        reason(|| Cents::new(1_000_000_000_000) + Cents::one()),
        reason(|| Minutes::new(1000).lcm(&Minutes::new(999))),
        reason(|| Nibble::new(-8) / Nibble::new(-1)),
    ];
    assert_eq!(reasons, ["the number is out of range"; 9]);
    assert_eq!(checked::sum(most, one), None);
    assert_eq!(checked::difference(one, most), None);
    assert_eq!(checked::product(most, most), None);
    assert_eq!(checked::lcm(Minutes::new(1000), Minutes::new(999)), None);
    assert_eq!(checked::div_rem(Nibble::new(-8), Nibble::new(-1)), None);
    assert_eq!(checked::sum(Percent::new(99), one), Some(most));
}

#[test]
fn a_result_that_no_i64_holds_is_a_panic_or_none() {
    let most = Wide::new(i64::MAX);
    assert_eq!(reason(move || most + most), "attempt to add with overflow");
    assert_eq!(
        reason(move || most * most),
        "attempt to multiply with overflow"
    );
    assert_eq!(checked::sum(most, most), None);
    assert_eq!(checked::product(most, most), None);
    assert_eq!(checked::sum(most, -most), Some(Wide::zero()));
    assert_eq!(most % Wide::new(-1), Wide::zero());
}

#[test]
fn a_division_by_zero_is_a_panic_or_none() {
    let (seven, zero) = (Minutes::new(7), Minutes::zero());
    assert_eq!(reason(move || seven / zero), "attempt to divide by zero");
    assert!(catch_unwind(move || seven % zero).is_err());
    assert!(catch_unwind(move || seven.div_floor(&zero)).is_err());
    assert_eq!(checked::div_floor(seven, zero), None);
}

/// Each call at each pair of numbers from -8 to 7 is the same as at `i64`, where its result is in range.
#[test]
fn small_numbers_are_as_at_i64() {
    let within = |n: i64| Nibble::try_from(n).ok();
    for (a, b) in (-8..=7).flat_map(|a| (-8..=7).map(move |b| (a, b))) {
        let (x, y) = (Nibble::new(a), Nibble::new(b));
        assert_eq!(checked::sum(x, y), within(a + b));
        assert_eq!(checked::difference(x, y), within(a - b));
        assert_eq!(checked::product(x, y), within(a * b));
        assert_eq!(checked::gcd(x, y), within(a.gcd(&b)));
        assert_eq!(checked::lcm(x, y), within(a.lcm(&b)));
        assert_eq!(x.average_floor(&y).number(), a.average_floor(&b));
        assert_eq!(x.average_ceil(&y).number(), a.average_ceil(&b));
        assert_eq!((x < y, x == y), (a < b, a == b));
        assert_eq!(x.is_multiple_of(&y), Integer::is_multiple_of(&a, &b));
        assert_eq!((x.is_even(), x.is_odd()), (a & 1 == 0, a & 1 == 1));
        if b != 0 {
            assert!(a / b == 8 || (x / y).number() == a / b, "{a} {b}");
            assert_eq!(checked::div_floor(x, y), within(Integer::div_floor(&a, &b)));
            assert_eq!(x.mod_floor(&y).number(), a.mod_floor(&b));
            assert_eq!((x % y).number(), a % b);
            let pair = checked::div_rem(x, y).map(|(q, r)| (q.number(), r.number()));
            assert_eq!(pair, within(a / b).map(|_| (a / b, a % b)));
        }
    }
}

/// Each product and each power modulo a number from 1 to 7, by the remainder of the product or the power of the integers.
#[test]
fn small_products_and_powers_modulo_a_number() {
    for (a, b) in (-8..=7i64).flat_map(|a| (-8..=7i64).map(move |b| (a, b))) {
        for m in 1..=7 {
            let (x, y, n) = (Nibble::new(a), Nibble::new(b), Nibble::new(m));
            assert_eq!(product_modulo(x, y, n).number(), (a * b).rem_euclid(m));
            let exponent = b.unsigned_abs() as u32;
            let power = power_modulo(x, exponent.into(), n).number();
            assert_eq!(power, a.pow(exponent).rem_euclid(m), "{a} {exponent} {m}");
        }
    }
    let (one, none) = (Nibble::one(), Nibble::zero());
    let reasons = [
        reason(move || product_modulo(one, one, none)),
        reason(move || power_modulo(one, 0, none)),
    ];
    assert_eq!(reasons, ["the modulus is not positive"; 2]);
}

#[test]
fn each_number_is_read_as_it_is_printed() {
    for n in -8..=7 {
        let x = Nibble::new(n);
        assert_eq!(x.to_string(), n.to_string());
        assert_eq!(x.to_string().parse(), Ok(x));
        assert_eq!(
            format!("{x:+05}|{x:<4}|{x:?}"),
            format!("{n:+05}|{n:<4}|{n:?}")
        );
    }
    for text in [
        "101",
        "-1",
        "",
        "seven",
        "7 ",
        "1e1",
        "99999999999999999999",
    ] {
        assert_eq!(text.parse::<Percent>(), Err(BoundedError), "{text}");
    }
    assert_eq!("+007".parse(), Ok(Percent::new(7)));
    assert_eq!("-0".parse(), Ok(Percent::zero()));
    assert!(Percent::from_str_radix("7", 10).is_err());
    assert_eq!(BoundedError.to_string(), "not an integer of the range");
}

#[test]
fn the_traits_are_those_of_the_numbers() {
    assert_eq!(Minutes::ends(), (0, 1439));
    assert_eq!(Nibble::ends(), (8, 7));
    assert_eq!(Nibble::new(-8).parts(), (true, 8));
    assert_eq!(Cents::new(-5).abs(), Cents::new(5));
    assert_eq!(Cents::new(-5).signum(), -Cents::one());
    assert_eq!(Cents::new(7).abs_sub(&Cents::new(9)), Cents::zero());
    assert!(Cents::new(-5).is_negative() && Cents::one().is_positive());
    assert!(!Cents::zero().is_negative() && !Cents::zero().is_positive());
    assert!(!Cents::one().is_negative() && !Cents::new(-1).is_positive());
    assert!(Cents::new(-5).is_odd() && !Cents::new(-4).is_odd());
    assert_eq!(Cents::new(-7) / Cents::new(2), Cents::new(-3));
    assert_eq!(Cents::new(7) / Cents::new(-2), Cents::new(-3));
    assert_eq!(sqrt(Minutes::new(1439)), Minutes::new(37));
    assert_eq!(nth_root(Cents::new(-27), 3), Cents::new(-3));
    assert_eq!(
        binomial(Minutes::new(12), Minutes::new(6)),
        Minutes::new(924)
    );
    assert_eq!(checked::binomial(Minutes::new(13), Minutes::new(6)), None);
    assert_eq!(residue(Cents::new(-3), Cents::new(7)), Cents::new(4));
    let power = power_modulo(2i64, 1000, 1439);
    assert_eq!(
        power_modulo(Minutes::new(2), 1000, Minutes::new(1439)).number(),
        power
    );
    let numbers: HashSet<_> = [1, 2, 1].map(Minutes::new).into_iter().collect();
    assert_eq!(numbers.len(), 2);
}
