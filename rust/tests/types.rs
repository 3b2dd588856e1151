//! What the types have beside the proved calls: operators, conversions, formats and iterators.

#[macro_use]
mod common;

use cellarcove::calendar::Date;
use cellarcove::ratio64::{Decimal, ParseRatioError, Ratio, RatioError, TryFromRatioError};
use cellarcove::IterBinomial;
use std::collections::HashSet;
use std::panic::{catch_unwind, UnwindSafe};

fn ratio(num: i64, den: i64) -> Ratio {
    Ratio::new(num, den).unwrap()
}

/// The reason with which a call panics.
fn reason<T>(call: impl FnOnce() -> T + UnwindSafe) -> String {
    let Err(panic) = catch_unwind(call) else {
        return String::new();
    };
    match panic.downcast::<String>() {
        Ok(text) => *text,
        Err(panic) => panic
            .downcast::<&str>()
            .map_or_else(|_| String::new(), |text| (*text).into()),
    }
}

#[test]
#[allow(clippy::op_ref)] // those of references too
fn each_operator_is_its_checked_call() {
    let parts = [-7, -2, -1, 0, 1, 3, 4, 9];
    for (a, b) in parts
        .iter()
        .flat_map(|a| parts.iter().map(move |b| (ratio(*a, 6), ratio(*b, 4))))
    {
        assert_eq!(Ok(a + b), a.checked_add(&b));
        assert_eq!(Ok(a - b), a.checked_sub(&b));
        assert_eq!(Ok(a * b), a.checked_mul(&b));
        assert_eq!(Ok(-a), a.checked_neg());
        assert_eq!([a + &b, &a + b, &a + &b], [a + b; 3]);
        assert_eq!([a - &b, &a - b, &a - &b], [a - b; 3]);
        assert_eq!([a * &b, &a * b, &a * &b], [a * b; 3]);
        assert_eq!(-&a, -a);
        let (mut sum, mut difference, mut product) = (a, a, a);
        sum += b;
        difference -= b;
        product *= b;
        assert_eq!((sum, difference, product), (a + b, a - b, a * b));
        sum += &b;
        difference -= &b;
        product *= &b;
        assert_eq!(
            (sum, difference, product),
            (a + b + b, a - b - b, a * b * b)
        );
        if !b.is_zero() {
            assert_eq!(Ok(a / b), a.checked_div(&b));
            assert_eq!([a / &b, &a / b, &a / &b], [a / b; 3]);
            let mut quotient = a;
            quotient /= b;
            assert_eq!(quotient, a / b);
            quotient /= &b;
            assert_eq!(quotient, a / b / b);
        }
    }
}

#[test]
#[allow(clippy::op_ref)] // those of references too
fn each_operator_takes_an_integer() {
    for (num, whole) in (-7..=7).flat_map(|num| (-3..=3).map(move |whole| (num, whole))) {
        let (x, y) = (ratio(num, 4), Ratio::from(whole));
        assert_eq!((x + whole, x - whole, x * whole), (x + y, x - y, x * y));
        assert_eq!((&x + whole, &x - whole, &x * whole), (x + y, x - y, x * y));
        let (mut sum, mut difference, mut product) = (x, x, x);
        sum += whole;
        difference -= whole;
        product *= whole;
        assert_eq!((sum, difference, product), (x + y, x - y, x * y));
        if whole != 0 {
            let mut quotient = x;
            quotient /= whole;
            assert_eq!((quotient, x / whole, &x / whole), (x / y, x / y, x / y));
        }
    }
    assert_eq!(ratio(19, 100) * 250, ratio(95, 2));
    let most = Ratio::from(i64::MAX);
    assert_eq!(
        reason(|| most * 2),
        "the product of the fractions does not fit"
    );
    assert_eq!(reason(|| most / 0), "attempt to divide a fraction by zero");
}

#[test]
fn an_operator_panics_with_the_reason() {
    let (least, most, tiny) = (ratio(i64::MIN, 1), ratio(i64::MAX, 1), ratio(1, i64::MAX));
    returns! {
        reason(|| most + most) => "the sum of the fractions does not fit";
        reason(|| least - most) => "the difference of the fractions does not fit";
        reason(|| tiny * tiny) => "the product of the fractions does not fit";
        reason(|| most / tiny) => "the quotient of the fractions does not fit";
        reason(|| most / Ratio::zero()) => "attempt to divide a fraction by zero";
        reason(|| -least) => "the negated fraction does not fit";
        reason(|| [most, most].iter().sum::<Ratio>()) => "the sum of the fractions does not fit";
    }
    let mut kept = most;
    assert_eq!(
        reason(std::panic::AssertUnwindSafe(|| kept += most)),
        "the sum of the fractions does not fit"
    );
    assert_eq!(kept, most);
}

#[test]
fn sums_and_products() {
    let parts = [ratio(1, 2), ratio(1, 3), ratio(1, 6)];
    assert_eq!(parts.iter().sum::<Ratio>(), Ratio::one());
    assert_eq!(parts.into_iter().sum::<Ratio>(), Ratio::one());
    assert_eq!(parts.iter().product::<Ratio>(), ratio(1, 36));
    assert_eq!(parts.into_iter().product::<Ratio>(), ratio(1, 36));
    assert_eq!([].iter().sum::<Ratio>(), Ratio::zero());
    assert_eq!([].iter().product::<Ratio>(), Ratio::one());
}

#[test]
fn conversions() {
    returns! {
        [Ratio::from(-5i8), Ratio::from(-5i16), Ratio::from(-5i32)] => [ratio(-5, 1); 3];
        [Ratio::from(5u8), Ratio::from(5u16), Ratio::from(5u32)] => [ratio(5, 1); 3];
        (i8::try_from(ratio(-128, 1)), i8::try_from(ratio(128, 1)).is_err()) => (Ok(-128), true);
        (u64::try_from(ratio(7, 1)), u64::try_from(ratio(-7, 1)).is_err()) => (Ok(7), true);
        (i64::try_from(ratio(i64::MIN, 1)), i128::try_from(ratio(1, 2)).is_err())
            => (Ok(i64::MIN), true);
    }
    assert!(i64::try_from(ratio(1, i64::MAX)).is_err());
    returns! {
        Ratio::try_from(i64::MAX as u64) => Ok(ratio(i64::MAX, 1));
        Ratio::try_from(1u64 << 63) => Err(RatioError::NotFitting);
        Ratio::try_from(i128::from(i64::MIN)) => Ok(ratio(i64::MIN, 1));
        Ratio::try_from(i128::from(i64::MIN) - 1) => Err(RatioError::NotFitting);
        Ratio::try_from(u128::MAX) => Err(RatioError::NotFitting);
        (Ratio::try_from(7usize), Ratio::try_from(-7isize)) => (Ok(ratio(7, 1)), Ok(ratio(-7, 1)));
    }
    let error: TryFromRatioError = usize::try_from(ratio(1, 2)).unwrap_err();
    assert_eq!(error.to_string(), "the fraction is no integer of the type");
    assert_eq!((ratio(6, -4).numer(), ratio(6, -4).denom()), (-3, 2));
}

#[test]
fn constants() {
    const HALF_OFF: [Ratio; 3] = [Ratio::zero(), Ratio::one(), Ratio::from_integer(-5)];
    static FIVE: Ratio = Ratio::from_integer(5);
    assert_eq!(HALF_OFF, [ratio(0, 1), ratio(1, 1), ratio(-5, 1)]);
    assert_eq!(FIVE, Ratio::from(5));
}

#[test]
fn errors_have_hashes() {
    let errors = [RatioError::ZeroDenominator, RatioError::NotFitting];
    assert_eq!(errors.iter().collect::<HashSet<_>>().len(), 2);
    let read: HashSet<ParseRatioError> = errors.into_iter().map(Into::into).collect();
    assert_eq!(read.len(), 2);
    let none: HashSet<TryFromRatioError> = [u8::try_from(ratio(1, 2)), u8::try_from(ratio(-1, 1))]
        .into_iter()
        .filter_map(Result::err)
        .collect();
    assert_eq!(none.len(), 1);
}

/// A number is on the right, with the sign and the zeros that the format asks for.
#[test]
fn fractions_are_formatted_as_integers_are() {
    let (fraction, whole) = (ratio(-3, 2), Ratio::from(5));
    assert_eq!(
        format!("{fraction}|{fraction:8}|{fraction:>8}|{fraction:<8}|{fraction:*^8}|"),
        "-3/2|    -3/2|    -3/2|-3/2    |**-3/2**|"
    );
    assert_eq!(
        format!("{whole}|{whole:3}|{whole:<3}|{whole:0>3}"),
        "5|  5|5  |005"
    );
    let amount = ratio(1234, 5);
    assert_eq!(
        format!("{amount:+}|{amount:010}|{amount:+010}|{amount:+}|{fraction:+}|{fraction:08}"),
        "+1234/5|00001234/5|+0001234/5|+1234/5|-3/2|-00003/2"
    );
    // as integers have them
    for number in [0i64, 7, -7, i64::MAX, i64::MIN] {
        let whole = Ratio::from(number);
        assert_eq!(
            format!("{whole}|{whole:25}|{whole:<25}|{whole:^25}|{whole:+}|{whole:025}|{whole:#}|{whole:_>+25}"),
            format!("{number}|{number:25}|{number:<25}|{number:^25}|{number:+}|{number:025}|{number:#}|{number:_>+25}")
        );
    }
}

/// A precision gives the decimals, and cuts nothing off.
#[test]
fn a_precision_gives_decimals() {
    let (amount, tiny) = (ratio(1234, 5), ratio(-1, 20));
    assert_eq!(
        format!("{amount:.2} {:.1} {tiny:.2}", Ratio::from(1234)),
        "246.80 1234.0 -0.05"
    );
    assert_eq!(
        format!("{amount:.0}|{amount:9.2}|{amount:<9.2}|{amount:*^+9.1}|{amount:09.2}|{tiny:08.3}|{tiny:.1}"),
        "247|   246.80|246.80   |*+246.8**|000246.80|-000.050|0.0"
    );
    let places = 3;
    assert_eq!(
        format!("{amount:.places$} {:.*}", 1, ratio(1, 3)),
        "246.800 0.3"
    );
    let least = Ratio::from(i64::MIN);
    assert_eq!(
        format!("{least:.18}"),
        "-9223372036854775808.000000000000000000"
    );
    // so does one that is longer than any decimal number
    let third = ratio(-2, 3);
    assert_eq!(
        format!("{third:.20}|{third:25.20}|{third:<25.20}|{third:*^+26.20}|{third:025.20}|{third:_>2.20}"),
        "-0.66666666666666666667|  -0.66666666666666666667|-0.66666666666666666667  |\
         *-0.66666666666666666667**|-000.66666666666666666667|-0.66666666666666666667"
    );
    let half = ratio(1, 2);
    assert_eq!(
        format!("{half:+.19}|{half:+025.19}|{half:€^25.19}|{half:+<24.19}"),
        "+0.5000000000000000000|+0000.5000000000000000000|€€0.5000000000000000000€€|0.5000000000000000000+++"
    );
    let zeros = "0".repeat(500);
    assert_eq!(format!("{amount:.501}"), format!("246.8{zeros}"));
    assert_eq!(format!("{amount:0>600.501}"), format!("{}246.8{zeros}", "0".repeat(95)));
    // a writer without room gets what fits, and an error
    let mut bytes = [0; 4];
    let mut room = &mut bytes[..];
    assert!(std::io::Write::write_fmt(&mut room, format_args!("{amount:.19}")).is_err());
}

#[test]
fn decimals() {
    let decimal = ratio(-1234, 5).to_decimal(2).unwrap();
    assert_eq!((decimal.units(), decimal.places()), (-24680, 2));
    assert_eq!(
        format!("{decimal}|{decimal:10}|{decimal:<10}|{decimal:010}"),
        "-246.80|   -246.80|-246.80   |-000246.80"
    );
    // decimals are equal if they are the same number, whatever their places
    let fewer = ratio(-1234, 5).to_decimal(1).unwrap();
    assert_eq!(
        (decimal == fewer, fewer.to_string()),
        (true, "-246.8".to_string())
    );
    let less = ratio(-12341, 50).to_decimal(2).unwrap();
    let both: HashSet<Decimal> = [decimal, fewer, less].into_iter().collect();
    assert_eq!((both.len(), less < fewer), (2, true));
    assert_eq!(ratio(1, 3).to_decimal(19), None);
    assert_eq!(ratio(1, 3).to_decimal(u32::MAX), None);
}

/// A date keeps its width and fill, and a precision cuts nothing off.
#[test]
fn other_formats_keep_width_and_fill() {
    let date = Date::new(2024, 2, 9).unwrap();
    assert_eq!(
        format!("{date}|{date:>12}|{date:_<12}|{date:_^14}|{date:12}|{date:.4}|{date:+}|{date:>12.4}|{date:0}"),
        "2024-02-09|  2024-02-09|2024-02-09__|__2024-02-09__|2024-02-09  |2024-02-09|2024-02-09|  2024-02-09|2024-02-09"
    );
    // what is over in the middle stands behind, as with a string of std
    let text = date.to_string();
    assert_eq!(
        format!("{date:_^11}|{date:_^13}|{:_^11}|{:_^13}", text, text),
        "2024-02-09_|_2024-02-09__|2024-02-09_|_2024-02-09__"
    );
    let week = date.iso_week().unwrap();
    assert_eq!(
        format!("{week:.3}|{week:>10}|{week:<10}|{week:é^10}"),
        "2024-W06|  2024-W06|2024-W06  |é2024-W06é"
    );
    let far = Date::new(i64::MIN, 12, 31).unwrap();
    assert_eq!(format!("{far:>30}"), format!("{:>30}", far.to_string()));
    assert_eq!(
        format!("{:>60}", Ratio::new(1, 0).unwrap_err()),
        format!("{:>60}", "the denominator is 0")
    );
    assert_eq!(
        format!("{:<30}|", "1/".parse::<Ratio>().unwrap_err()),
        format!("{:<30}|", "the text is not a fraction")
    );
}

#[test]
fn a_row_has_its_length() {
    for n in 0..=10u8 {
        let mut row = IterBinomial::new(n);
        for left in (1..=usize::from(n) + 1).rev() {
            assert_eq!((row.len(), row.size_hint()), (left, (left, Some(left))));
            assert!(row.next().is_some());
        }
        assert_eq!(
            (row.len(), row.next(), row.next(), row.len()),
            (0, None, None, 0)
        );
    }
    assert_eq!(IterBinomial::new(-3i32).len(), 0);
    assert_eq!(IterBinomial::new(i32::MAX).len(), 1 << 31);
    assert_eq!(IterBinomial::new(u128::MAX).size_hint(), (usize::MAX, None));
    let mut row = IterBinomial::new(4u8);
    row.next();
    assert_eq!(row.clone().collect::<Vec<_>>(), row.collect::<Vec<_>>());
    assert!(format!("{:?}", IterBinomial::new(4u8)).starts_with("IterBinomial"));
}

#[test]
fn days_from_one_date_to_another() {
    let (from, end) = (
        Date::new(2023, 12, 30).unwrap(),
        Date::new(2024, 3, 1).unwrap(),
    );
    let days = from.days_until(end);
    assert_eq!(days.size_hint(), (62, Some(62)));
    let dates: Vec<Date> = days.clone().collect();
    assert_eq!(
        (dates.len(), dates[0], dates[61].to_string()),
        (62, from, "2024-02-29".into())
    );
    assert!(dates.windows(2).all(|pair| pair[0].next() == Some(pair[1])));
    assert_eq!(
        end.days_until(from).count() + from.days_until(from).count(),
        0
    );
    let last = Date::new(i64::MAX, 12, 31).unwrap();
    returns! {
        (last.previous().unwrap().days_until(last).count(), last.days_until(last).next())
            => (1, None);
        Date::new(i64::MIN, 1, 1).unwrap().days_until(last).size_hint().1 => None;
    }
}
