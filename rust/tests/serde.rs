//! `serde` writes and reads values as their strings, and an invalid string is an error.
#![cfg(feature = "serde")]

use cellarcove::calendar::{Date, IsoWeek, Weekday};
use cellarcove::ratio64::{Decimal, Ratio};
use serde_json::{from_str, to_string};

#[test]
fn fractions() {
    let fraction = Ratio::new(-6, 4).unwrap();
    assert_eq!(to_string(&fraction).unwrap(), "\"-3/2\"");
    assert_eq!(from_str::<Ratio>("\"6/-4\"").unwrap(), fraction);
    assert_eq!(from_str::<Ratio>("\"7\"").unwrap(), Ratio::from(7));
    assert_eq!(
        from_str::<Vec<Ratio>>(&to_string(&vec![fraction; 2]).unwrap()).unwrap(),
        [fraction; 2]
    );
    let said = from_str::<Ratio>("\"1/0\"").unwrap_err().to_string();
    assert!(said.starts_with("the denominator is 0"), "{said}");
    for invalid in [
        "\"\"",
        "\"1/\"",
        "\"a\"",
        "\"9223372036854775808\"",
        "1.5",
        "3",
        "null",
        "[1, 2]",
    ] {
        assert!(from_str::<Ratio>(invalid).is_err(), "{invalid}");
    }
    let said = from_str::<Ratio>("3").unwrap_err().to_string();
    assert!(said.contains("expected a fraction, as \"3/4\""), "{said}");
}

#[test]
fn decimals() {
    let amount = Decimal::new(-5, 2).unwrap();
    assert_eq!(to_string(&amount).unwrap(), "\"-0.05\"");
    assert_eq!(from_str::<Decimal>("\"-0.05\"").unwrap(), amount);
    assert_eq!(from_str::<Decimal>("\"12.30\"").unwrap().places(), 2);
    for invalid in ["\"\"", "\"1,5\"", "\"1e3\"", "\"5.\"", "1.5", "3", "null"] {
        assert!(from_str::<Decimal>(invalid).is_err(), "{invalid}");
    }
    let said = from_str::<Decimal>("1.5").unwrap_err().to_string();
    assert!(said.contains("expected a decimal number, as \"-0.05\""), "{said}");
}

#[test]
fn dates() {
    for (year, month, day) in [(2024, 2, 29), (0, 1, 1), (-44, 3, 15), (10000, 12, 31)] {
        let date = Date::new(year, month, day).unwrap();
        assert_eq!(to_string(&date).unwrap(), format!("\"{date}\""));
        assert_eq!(from_str::<Date>(&to_string(&date).unwrap()).unwrap(), date);
    }
    for invalid in [
        "\"2023-02-29\"",
        "\"2024-2-29\"",
        "\"2024-02-29T00:00\"",
        "\"\"",
        "20240229",
        "{}",
    ] {
        assert!(from_str::<Date>(invalid).is_err(), "{invalid}");
    }
}

#[test]
fn weeks_and_days_of_the_week() {
    for (year, week) in [(2004, 53), (0, 1), (-44, 10), (12345, 52)] {
        let week = IsoWeek::new(year, week).unwrap();
        assert_eq!(to_string(&week).unwrap(), format!("\"{week}\""));
        assert_eq!(
            from_str::<IsoWeek>(&to_string(&week).unwrap()).unwrap(),
            week
        );
    }
    for invalid in [
        "\"2005-W53\"",
        "\"2004-W00\"",
        "\"2004-W5\"",
        "\"+2004-W05\"",
        "\"2004W05\"",
        "5",
        "\"\"",
    ] {
        assert!(from_str::<IsoWeek>(invalid).is_err(), "{invalid}");
    }
    for number in 1..=7 {
        let weekday = Weekday::from_iso_number(number).unwrap();
        assert_eq!(
            from_str::<Weekday>(&to_string(&weekday).unwrap()).unwrap(),
            weekday
        );
    }
    assert_eq!(to_string(&Weekday::Friday).unwrap(), "\"Friday\"");
    for invalid in ["\"friday\"", "\"Fri\"", "5", "\"\""] {
        assert!(from_str::<Weekday>(invalid).is_err(), "{invalid}");
    }
}
