//! Decimal numbers that are read: strings and what Python's `decimal` says of them, and properties.

use cellarcove::ratio64::ParseDecimalError::{NotADecimal, NotFitting, TooManyPlaces};
use cellarcove::ratio64::{Decimal, ParseDecimalError, Ratio, RatioError};
use std::cmp::Ordering;
use std::collections::hash_map::DefaultHasher;
use std::hash::{Hash, Hasher};

/// A string, and the units and the places of the number that it spells.
type Row = (&'static str, Result<(i128, u32), ParseDecimalError>);

/// Corners and numbers of each size, by Python: a string of the form `-?[0-9]+(\.[0-9]+)?` as a `decimal.Decimal`, times 10
/// to the power of its places, but of at most 18.
#[rustfmt::skip]
static ROWS: [Row; 145] = [
    ("12.34", Ok((1234, 2))),
    ("-0.05", Ok((-5, 2))),
    ("0", Ok((0, 0))),
    ("-0", Ok((0, 0))),
    ("-0.00", Ok((0, 2))),
    ("7", Ok((7, 0))),
    ("007.50", Ok((750, 2))),
    ("1.000", Ok((1000, 3))),
    ("0.1", Ok((1, 1))),
    ("-1", Ok((-1, 0))),
    ("00", Ok((0, 0))),
    ("-00.5", Ok((-5, 1))),
    ("246.80", Ok((24680, 2))),
    ("1.000000000000000000", Ok((1000000000000000000, 18))),
    ("1.0000000000000000000", Ok((1000000000000000000, 18))),
    ("1.00000000000000000000000000000000000000000000000000", Ok((1000000000000000000, 18))),
    ("0.0000000000000000000000000000000000000000", Ok((0, 18))),
    ("-0.5000000000000000000000000000000", Ok((-500000000000000000, 18))),
    ("0.000000000000000001", Ok((1, 18))),
    ("0.0000000000000000001", Err(TooManyPlaces)),
    ("0.0000000000000000010", Ok((1, 18))),
    ("1.000000000000000000000000000000000000000000000000001", Err(TooManyPlaces)),
    ("170141183460469231731687303715884105727", Ok((170141183460469231731687303715884105727, 0))),
    ("170141183460469231731687303715884105728", Err(NotFitting)),
    ("-170141183460469231731687303715884105727", Ok((-170141183460469231731687303715884105727, 0))),
    ("-170141183460469231731687303715884105728", Err(NotFitting)),
    ("-170141183460469231731687303715884105729", Err(NotFitting)),
    ("0000000000000000000000000000000000000000000000000000000000005", Ok((5, 0))),
    ("-0000000000000000000000000000000000000000000000000000000000005.5", Ok((-55, 1))),
    ("1701411834604692317316873037158841057.27", Ok((170141183460469231731687303715884105727, 2))),
    ("1701411834604692317316873037158841057.28", Err(NotFitting)),
    ("-170141183460469231731.687303715884105728", Err(NotFitting)),
    ("170141183460469231731.687303715884105727", Ok((170141183460469231731687303715884105727, 18))),
    ("170141183460469231731.687303715884105727000", Ok((170141183460469231731687303715884105727, 18))),
    ("999999999999999999999999999999999999999", Err(NotFitting)),
    ("9999999999999999999999999999999999999999999999999999999999999999999999999999999999999999999999999999", Err(NotFitting)),
    ("999999999999999999999.000000000000000000", Err(NotFitting)),
    ("99999999999999999999.999999999999999999", Ok((99999999999999999999999999999999999999, 18))),
    ("9999999999999999999999999.9999999999999999999", Err(TooManyPlaces)),
    ("9999999999999999999999999.0000000000000000000", Err(NotFitting)),
    ("", Err(NotADecimal)),
    ("-", Err(NotADecimal)),
    (".", Err(NotADecimal)),
    ("5.", Err(NotADecimal)),
    (".5", Err(NotADecimal)),
    ("-.5", Err(NotADecimal)),
    ("-5.", Err(NotADecimal)),
    ("+5", Err(NotADecimal)),
    ("+0.5", Err(NotADecimal)),
    ("--5", Err(NotADecimal)),
    ("- 5", Err(NotADecimal)),
    (" 5", Err(NotADecimal)),
    ("5 ", Err(NotADecimal)),
    ("1,5", Err(NotADecimal)),
    ("1,234.50", Err(NotADecimal)),
    ("1.234,50", Err(NotADecimal)),
    ("1_000", Err(NotADecimal)),
    ("1'000", Err(NotADecimal)),
    ("1 000", Err(NotADecimal)),
    ("1e3", Err(NotADecimal)),
    ("1E3", Err(NotADecimal)),
    ("1.5e-3", Err(NotADecimal)),
    ("0x10", Err(NotADecimal)),
    ("$5", Err(NotADecimal)),
    ("5$", Err(NotADecimal)),
    ("€5", Err(NotADecimal)),
    ("5 EUR", Err(NotADecimal)),
    ("1.2.3", Err(NotADecimal)),
    ("1..2", Err(NotADecimal)),
    ("1.-2", Err(NotADecimal)),
    ("1.+2", Err(NotADecimal)),
    ("1.2-", Err(NotADecimal)),
    ("NaN", Err(NotADecimal)),
    ("inf", Err(NotADecimal)),
    ("-inf", Err(NotADecimal)),
    ("1/2", Err(NotADecimal)),
    ("٣", Err(NotADecimal)),
    ("1.٣", Err(NotADecimal)),
    ("１", Err(NotADecimal)),
    ("\u{2212}5", Err(NotADecimal)),
    ("1\u{a0}000", Err(NotADecimal)),
    ("1.0\n", Err(NotADecimal)),
    ("\t1", Err(NotADecimal)),
    ("1.0000000000000000000x", Err(NotADecimal)),
    ("00000000000000000000000000000000000000000x", Err(NotADecimal)),
    ("-9.01", Ok((-901, 2))),
    ("0.00000400000000000", Ok((400000000000, 17))),
    ("-0.0100000000000", Ok((-100000000000, 13))),
    ("-0.0654978358245394413302279", Err(TooManyPlaces)),
    ("-27052.8910", Ok((-270528910, 4))),
    ("-344052643515799732.6000000000000000", Ok((-3440526435157997326000000000000000, 16))),
    ("0.0000000000000000000000002", Err(TooManyPlaces)),
    ("-0.000000000000000003", Ok((-3, 18))),
    ("0.00", Ok((0, 2))),
    ("40.79", Ok((4079, 2))),
    ("0.0000000000000000000000403", Err(TooManyPlaces)),
    ("-0.09587800000000000000000", Ok((-95878000000000000, 18))),
    ("0.0000070000000", Ok((70000000, 13))),
    ("7.45296616854893458500000000000", Ok((7452966168548934585, 18))),
    ("-185621.00000000", Ok((-18562100000000, 8))),
    ("147634906619218.24", Ok((14763490661921824, 2))),
    ("919471213298447753179403060.326", Ok((919471213298447753179403060326, 3))),
    ("-0.000021167631238087", Ok((-21167631238087, 18))),
    ("-153034878210949.2", Ok((-1530348782109492, 1))),
    ("-4.20", Ok((-420, 2))),
    ("-0.0466520838554057251", Err(TooManyPlaces)),
    ("9474830660530952801292228720595.710000000000000", Err(NotFitting)),
    ("6", Ok((6, 0))),
    ("-0.0", Ok((0, 1))),
    ("0.000007", Ok((7, 6))),
    ("42328.04", Ok((4232804, 2))),
    ("-69686564.7000", Ok((-696865647000, 4))),
    ("-0.020", Ok((-20, 3))),
    ("-0.0000000000000000049", Err(TooManyPlaces)),
    ("-0.024689926072990896", Ok((-24689926072990896, 18))),
    ("2.6", Ok((26, 1))),
    ("-611893.090", Ok((-611893090, 3))),
    ("-218628.8", Ok((-2186288, 1))),
    ("597217.106746", Ok((597217106746, 6))),
    ("-22009944275302.82000000000", Ok((-2200994427530282000000000, 11))),
    ("-395409293381293946396165009", Ok((-395409293381293946396165009, 0))),
    ("0.8", Ok((8, 1))),
    ("-0.000000000000000988", Ok((-988, 18))),
    ("-82.4", Ok((-824, 1))),
    ("0.00000000000000000000008210000000000000000000", Err(TooManyPlaces)),
    ("-849.88", Ok((-84988, 2))),
    ("-0.000000000000", Ok((0, 12))),
    ("0.00002578230100000000000000", Ok((25782301000000, 18))),
    ("-0.03000", Ok((-3000, 5))),
    ("0.000000000000000000000008700000000000000000000", Err(TooManyPlaces)),
    ("-92563034.434071000000000000000000", Ok((-92563034434071000000000000, 18))),
    ("7821198.1", Ok((78211981, 1))),
    ("-0.00000000000002336400000000000000000", Ok((-23364, 18))),
    ("-0.000000000007", Ok((-7, 12))),
    ("-0.000002912564", Ok((-2912564, 12))),
    ("-0.0000020000000000", Ok((-20000000000, 16))),
    ("41.095", Ok((41095, 3))),
    ("5525.72", Ok((552572, 2))),
    ("-0.000000000009", Ok((-9, 12))),
    ("-58.7900", Ok((-587900, 4))),
    ("38995.751", Ok((38995751, 3))),
    ("-0.0052708921271045530000000000000000", Ok((-5270892127104553, 18))),
    ("-79.1000000000000000000", Ok((-79100000000000000000, 18))),
    ("-9034313058794.520000000", Ok((-9034313058794520000000, 9))),
    ("-2.374000000000", Ok((-2374000000000, 12))),
];

fn hash_of(x: &Decimal) -> u64 {
    let mut hasher = DefaultHasher::new();
    x.hash(&mut hasher);
    hasher.finish()
}

fn decimal(units: i128, places: u32) -> Decimal {
    Decimal::new(units, places).unwrap()
}

/// Numbers of each size and sign at each number of places.
fn numbers() -> Vec<Decimal> {
    let mut sizes = vec![0, 1, 2, 5, 9, 10, 50, 99, 100, 12340, i128::MAX, i128::MAX - 1];
    sizes.extend((1..38).map(|k| 10_i128.pow(k)));
    let units = sizes.iter().flat_map(|size| [*size, -*size]);
    units.flat_map(|units| (0..=18).map(move |places| decimal(units, places))).collect()
}

#[test]
fn strings_are_read() {
    for (text, wanted) in ROWS {
        let read = text.parse::<Decimal>();
        assert_eq!(read.map(|x| (x.units(), x.places())), wanted, "{text:?}");
    }
}

#[test]
fn what_is_printed_is_read_back() {
    for x in numbers() {
        let read: Decimal = x.to_string().parse().unwrap();
        assert_eq!((read.units(), read.places()), (x.units(), x.places()), "{x}");
    }
}

#[test]
fn zeros_after_the_last_place_change_nothing() {
    for x in numbers().into_iter().step_by(7) {
        for more in [1, 17, 18, 19, 1000] {
            let text = x.to_string() + if x.places() == 0 { "." } else { "" } + &"0".repeat(more);
            match text.parse::<Decimal>() {
                Ok(read) => assert_eq!(read, x, "{text}"),
                Err(error) => {
                    assert_eq!(error, NotFitting, "{text}");
                    assert!(x.units().checked_mul(10_i128.pow(18 - x.places())).is_none(), "{text}");
                }
            }
        }
    }
}

#[test]
fn long_strings_are_read() {
    let zeros = "0".repeat(1_000_000);
    assert_eq!(format!("{zeros}5.25").parse(), Ok(decimal(525, 2)));
    assert_eq!(format!("-5.25{zeros}").parse(), Ok(decimal(-525, 2)));
    assert_eq!(format!("5.{zeros}1").parse::<Decimal>(), Err(TooManyPlaces));
    assert_eq!(format!("5{zeros}").parse::<Decimal>(), Err(NotFitting));
    assert_eq!(format!("{zeros}x").parse::<Decimal>(), Err(NotADecimal));
}

#[test]
fn numbers_outside_are_none() {
    assert_eq!(Decimal::new(0, 19), None);
    assert_eq!(Decimal::new(i128::MIN, 0), None);
    assert_eq!(Decimal::new(0, u32::MAX), None);
    assert_eq!(decimal(i128::MIN + 1, 18).units(), -i128::MAX);
}

/// The order of the numbers times 10^18, by their digits in front of the point and behind it.
fn order_by_digits(x: &Decimal, y: &Decimal) -> Ordering {
    let parts = |z: &Decimal| {
        let (whole, part) = (z.units() / 10_i128.pow(z.places()), z.units() % 10_i128.pow(z.places()));
        (whole, part * 10_i128.pow(18 - z.places()))
    };
    parts(x).cmp(&parts(y))
}

#[test]
fn numbers_compare_whatever_their_places() {
    let numbers: Vec<Decimal> = numbers().into_iter().step_by(5).collect();
    for x in &numbers {
        for y in &numbers {
            let order = order_by_digits(x, y);
            assert_eq!(x.cmp(y), order, "{x} {y}");
            assert_eq!(x.partial_cmp(y), Some(order), "{x} {y}");
            assert_eq!(x == y, order.is_eq(), "{x} {y}");
            if x == y {
                assert_eq!(hash_of(x), hash_of(y), "{x} {y}");
            }
        }
    }
    assert!(decimal(5, 1) == decimal(50, 2) && decimal(5, 1) <= decimal(50, 2));
    assert!(decimal(-1, 18) < decimal(0, 0) && decimal(0, 5) == decimal(0, 0));
    assert_ne!(hash_of(&decimal(1234, 2)), hash_of(&decimal(1235, 2)));
}

#[test]
fn fractions_of_decimals_and_back() {
    assert_eq!(decimal(-5, 2).to_ratio(), Ratio::new(-1, 20));
    assert_eq!(decimal(i128::MAX, 0).to_ratio(), Err(RatioError::NotFitting));
    assert_eq!(decimal(10_i128.pow(37), 18).to_ratio(), Err(RatioError::NotFitting));
    assert_eq!(decimal(10_i128.pow(36), 18).to_ratio(), Ok(Ratio::from(10_i64.pow(18))));
    for x in numbers() {
        if let Ok(ratio) = x.to_ratio() {
            let back = ratio.to_decimal_exactly(x.places()).unwrap();
            assert_eq!((back.units(), back.places()), (x.units(), x.places()), "{x}");
        }
    }
}

#[test]
fn exact_decimals_of_fractions() {
    let exactly = |n, d, places| Ratio::new(n, d).unwrap().to_decimal_exactly(places).map(|x| x.to_string());
    assert_eq!(exactly(1, 8, 3).as_deref(), Some("0.125"));
    assert_eq!(exactly(1, 8, 4).as_deref(), Some("0.1250"));
    assert_eq!(exactly(1, 8, 2), None);
    assert_eq!(exactly(1, 3, 18), None);
    assert_eq!(exactly(1, 8, 19), None);
    assert_eq!(exactly(7, 1, u32::MAX), None);
    assert_eq!(exactly(i64::MIN, 1, 18).as_deref(), Some("-9223372036854775808.000000000000000000"));
    for (n, d) in (-40..40).flat_map(|n| (1..130).map(move |d| (n, d))) {
        let ratio = Ratio::new(n, d).unwrap();
        for places in 0..=18 {
            let is_exact = (i128::from(n) * 10_i128.pow(places)) % i128::from(d) == 0;
            let exact = ratio.to_decimal_exactly(places);
            assert_eq!(exact.is_some(), is_exact, "{n}/{d} {places}");
            if let Some(x) = exact {
                assert_eq!(x.units() * i128::from(d), i128::from(n) * 10_i128.pow(places), "{n}/{d}");
                assert_eq!((x.places(), x.to_ratio()), (places, Ok(ratio)), "{n}/{d}");
            }
        }
    }
}

#[test]
fn integers_are_decimals() {
    for number in [0, -7, i64::MIN, i64::MAX] {
        assert_eq!(Decimal::from(number).to_string(), number.to_string());
        assert_eq!(Decimal::from_integer(number).places(), 0);
    }
}

#[test]
fn errors_print_their_reason() {
    assert_eq!(NotADecimal.to_string(), "the text is not a decimal number");
    assert_eq!(TooManyPlaces.to_string(), "a digit after the 18th place is not 0");
    assert_eq!(NotFitting.to_string(), "the decimal number does not fit in 128 bits");
    assert_eq!(format!("{NotADecimal:>34}|"), "  the text is not a decimal number|");
}
