//! The iterator over dates against a list of dates, from both ends and at the ends of `i64`, and the operators of dates.

use cellarcove::calendar::{
    days_between, days_in_month, months_between, next_last_weekday, years_between, Date, Days,
    IsoWeek, Weekday,
};
use std::collections::HashSet;

/// A year, a month and a day of the month.
type Parts = (i64, u8, u8);

fn date(year: i64, month: u8, day: u8) -> Date {
    Date::new(year, month, day).expect("there is such a date")
}

/// The dates of a range, counted one by one.
fn dates(from: Date, end: Date) -> Vec<Date> {
    let mut dates = Vec::new();
    let mut next = from;
    while next < end {
        dates.push(next);
        next = next.next().expect("it is not the last date");
    }
    dates
}

/// The ranges of up to 70 days about a leap day, and of the first and the last days.
fn ranges() -> Vec<(Date, Date)> {
    let starts = [
        date(2024, 2, 27),
        date(1899, 12, 30),
        date(-1, 12, 31),
        date(i64::MIN, 1, 1),
        date(i64::MAX, 12, 31).minus_days(70).unwrap(),
    ];
    let lengths = [0, 1, 2, 3, 4, 5, 31, 66, 70];
    starts
        .iter()
        .flat_map(|from| lengths.map(|days| (*from, *from + days)))
        .collect()
}

/// Whether the iterator has exactly these dates left.
fn has_left(days: &Days, left: &[Date]) -> bool {
    days.len() == Some(left.len())
        && days.is_empty() == left.is_empty()
        && days.size_hint() == (left.len(), Some(left.len()))
        && days.clone().count() == left.len()
        && days.clone().last().as_ref() == left.last()
        && days.clone().eq(left.iter().copied())
        && days.clone().rev().eq(left.iter().rev().copied())
}

#[test]
fn dates_from_both_ends() {
    for (from, end) in ranges() {
        let (mut days, list) = (from.days_until(end), dates(from, end));
        let mut left = &list[..];
        for turn in 0.. {
            assert!(has_left(&days, left), "{from} {end} {turn}");
            let (found, expected) = if turn % 3 == 1 {
                (days.next(), left.first())
            } else {
                (days.next_back(), left.last())
            };
            assert_eq!(found.as_ref(), expected, "{from} {end} {turn}");
            left = match (left, turn % 3) {
                ([], _) => break,
                ([_, rest @ ..], 1) | ([rest @ .., _], _) => rest,
            };
        }
        assert_eq!((days.next(), days.next_back()), (None, None));
    }
}

#[test]
fn each_place() {
    for (from, end) in ranges() {
        let list = dates(from, end);
        for n in (0..list.len() + 3).chain([usize::MAX / 2, usize::MAX - 1, usize::MAX]) {
            let mut days = from.days_until(end);
            assert_eq!(days.nth(n).as_ref(), list.get(n), "{from} {end} {n}");
            let after = n.saturating_add(1).min(list.len());
            assert!(has_left(&days, &list[after..]), "{from} {end} {n}");

            let mut days = from.days_until(end);
            let place = list.len().checked_sub(1).and_then(|last| last.checked_sub(n));
            let found = days.nth_back(n);
            assert_eq!(found, place.map(|place| list[place]), "{from} {end} {n}");
            assert!(has_left(&days, &list[..place.unwrap_or(0)]), "{from} {end} {n}");
        }
    }
}

#[test]
fn steps() {
    let (from, end) = (date(2023, 12, 30), date(2024, 3, 1));
    let list = dates(from, end);
    for step in 1..70 {
        let (found, expected) = (from.days_until(end).step_by(step), list.iter().step_by(step));
        assert!(found.eq(expected.copied()), "{step}");
        let back = from.days_until(end).rev().step_by(step);
        assert!(back.eq(list.iter().rev().step_by(step).copied()), "{step}");
    }
    assert_eq!(from.days_until(end), from.days_until(end));
    assert_ne!(from.days_until(end), from.days_until(from));
    let ranges: HashSet<Days> = [from.days_until(end), from.days_until(end)].into_iter().collect();
    assert_eq!(ranges.len(), 1);
}

/// An end that comes before the start, by any number of days, leaves nothing.
#[test]
fn ends_before_starts() {
    let (low, high) = (date(i64::MIN, 1, 1), date(i64::MAX, 12, 31));
    for (from, end) in [
        (high, low),
        (high, date(0, 1, 1)),
        (date(0, 1, 1), low),
        (date(2024, 3, 1), date(2024, 2, 29)),
        (high, high),
        (low, low),
    ] {
        assert!(has_left(&from.days_until(end), &[]), "{from} {end}");
        let found: HashSet<Date> = from.days_until(end).collect();
        assert_eq!(found.len(), 0);
        let mut days = from.days_until(end);
        assert_eq!((days.nth(1), days.nth(5), days.nth_back(1), days.nth_back(5)), (None, None, None, None));
        assert!(has_left(&days, &[]), "{from} {end}");
    }
}

/// A number of days, with the date that is that many days after the first one of all, and the date that is that many before the last.
#[cfg(target_pointer_width = "64")]
const FAR: [(u128, Parts, Parts); 5] = [
    (9223372036854775807, (-9198119301927009254, 7, 28), (9198119301927009253, 6, 5)),
    (9223372036854775808, (-9198119301927009254, 7, 29), (9198119301927009253, 6, 4)),
    (18446744073709551614, (-9172866566999242699, 2, 20), (9172866566999242698, 11, 10)),
    (18446744073709551615, (-9172866566999242699, 2, 21), (9172866566999242698, 11, 9)),
    (18446744073709551616, (-9172866566999242699, 2, 22), (9172866566999242698, 11, 8)),
];

#[test]
#[cfg(target_pointer_width = "64")]
fn long_ranges() {
    let (low, high) = (date(i64::MIN, 1, 1), date(i64::MAX, 12, 31));
    for (length, (year, month, day), late) in FAR {
        let (early, late) = (date(year, month, day), date(late.0, late.1, late.2));
        for (from, end) in [(low, early), (late, high)] {
            let days = from.days_until(end);
            let count = usize::try_from(length).ok();
            assert_eq!((days.len(), days.is_empty()), (count, false), "{from} {end}");
            assert_eq!(days.size_hint(), (count.unwrap_or(usize::MAX), count));
            assert_eq!(days.clone().last(), end.previous());
            let Some(count) = count else { continue };
            assert_eq!(days.clone().count(), count);
            assert_eq!((days.clone().nth(count), days.clone().nth_back(count)), (None, None));
            assert_eq!(days.clone().nth(count - 1), end.previous());
            assert_eq!(days.clone().nth_back(count - 1), Some(from));
            assert_eq!(days.clone().nth(count - 2), end.minus_days(2));
            assert_eq!(days.clone().nth_back(count - 2), from.next());
        }
    }
    let all = low.days_until(high);
    assert_eq!((all.len(), all.size_hint()), (None, (usize::MAX, None)));
    let mut far = all.clone();
    assert_eq!(far.nth(usize::MAX), Some(date(-9172866566999242699, 2, 21)));
    assert_eq!(far.next(), Some(date(-9172866566999242699, 2, 22)));
    let mut far = all;
    assert_eq!(far.nth_back(usize::MAX), Some(date(9172866566999242698, 11, 8)));
    assert_eq!(far.next_back(), Some(date(9172866566999242698, 11, 7)));
}

/// Two dates, and the days from the first to the second.
const DISTANCES: [(Parts, Parts, i64); 8] = [
    ((2000, 1, 31), (2000, 3, 1), 30),
    ((1970, 1, 1), (1969, 12, 31), -1),
    ((1582, 10, 15), (2024, 2, 29), 161209),
    ((1, 1, 1), (9999, 12, 31), 3652058),
    ((-400, 3, 1), (2026, 11, 28), 886350),
    ((0, 2, 29), (0, 3, 1), 1),
    ((1970, 1, 1), (25252734927768524, 7, 27), i64::MAX),
    ((1970, 1, 1), (-25252734927764585, 6, 7), i64::MIN),
];

#[test]
fn differences_of_dates() {
    for ((year, month, day), (y, m, d), days) in DISTANCES {
        let (from, to) = (date(year, month, day), date(y, m, d));
        assert_eq!(to - from, days, "{from} {to}");
        assert_eq!((from.days_between(&to), days_between(&from, &to)), (Some(days), Some(days)));
        assert_eq!((from + days, to - days), (to, from), "{from} {to}");
        assert_eq!((from.plus_days(days), to.minus_days(days)), (Some(to), Some(from)));
        if let Some(back) = days.checked_neg() {
            assert_eq!((from - to, to + back, from - back), (back, from, to), "{from} {to}");
        }
        let (mut later, mut earlier) = (from, to);
        later += days;
        earlier -= days;
        assert_eq!((later, earlier), (to, from), "{from} {to}");
    }
}

/// A date, a number of days, and the date so many days later.
const LATER: [(Parts, i64, Parts); 9] = [
    ((2024, 2, 28), 2, (2024, 3, 1)),
    ((2024, 2, 29), 366, (2025, 3, 1)),
    ((1, 1, 1), -1, (0, 12, 31)),
    ((1970, 1, 1), 1000000000, (2739877, 1, 3)),
    ((2000, 2, 29), -146097, (1600, 2, 29)),
    ((i64::MAX, 12, 31), i64::MIN, (9198119301927009253, 6, 4)),
    ((i64::MIN, 1, 1), i64::MAX, (-9198119301927009254, 7, 28)),
    ((0, 1, 1), i64::MAX, (25252734927766554, 7, 27)),
    ((0, 1, 1), i64::MIN, (-25252734927766555, 6, 6)),
];

#[test]
fn later_and_earlier_dates() {
    for ((year, month, day), days, (y, m, d)) in LATER {
        let (first, second) = (date(year, month, day), date(y, m, d));
        assert_eq!((first + days, second - days), (second, first), "{first} {days}");
        assert_eq!(first.plus_days(days), Some(second), "{first} {days}");
        assert_eq!(second.minus_days(days), Some(first), "{first} {days}");
    }
    let (low, high) = (date(i64::MIN, 1, 1), date(i64::MAX, 12, 31));
    assert_eq!((low.minus_days(1), high.minus_days(-1)), (None, None));
    assert_eq!((low.minus_days(i64::MAX), high.minus_days(i64::MIN)), (None, None));
    assert_eq!((low.plus_days(-1), high.plus_days(1)), (None, None));
    assert_eq!((low.days_between(&high), high.days_between(&low)), (None, None));
}

#[test]
fn methods_are_the_functions() {
    let known = [date(2000, 1, 31), date(2000, 2, 29), date(2025, 2, 28), date(-1, 12, 31), date(i64::MAX, 12, 31)];
    for from in &known {
        for to in &known {
            assert_eq!(from.days_between(to), days_between(from, to), "{from} {to}");
            assert_eq!(from.months_between(to), months_between(from, to), "{from} {to}");
            assert_eq!(from.years_between(to), years_between(from, to), "{from} {to}");
        }
        for weekday in [Weekday::Monday, Weekday::Friday, Weekday::Sunday] {
            assert_eq!(from.next_last_weekday(weekday), next_last_weekday(from, weekday), "{from}");
        }
    }
    assert_eq!(known[0].months_between(&known[1]), Some(1));
    assert_eq!(known[1].years_between(&known[2]), Some(25));
}

/// Dates and weeks that a constant has.
#[test]
fn constants() {
    const EPOCH: Date = Date::from_day_number(0);
    const LEAP_DAY: Option<Date> = Date::new(2024, 2, 29);
    const LAST: Option<Date> = Date::from_year_day(2023, 365);
    const WEEK: Option<IsoWeek> = IsoWeek::new(2020, 53);
    const DAYS: u8 = days_in_month(1900, 2);
    const WEEKDAY: Weekday = EPOCH.weekday();
    const SUNDAY: Option<Weekday> = Weekday::from_iso_number(7);
    static NONE: [Option<Date>; 3] = [
        Date::new(2023, 2, 29),
        Date::new(2024, 13, 1),
        Date::from_year_day(2023, 366),
    ];
    assert_eq!((EPOCH, LAST), (date(1970, 1, 1), Date::new(2023, 12, 31)));
    assert_eq!(LEAP_DAY.map(|date| date.to_string()), Some("2024-02-29".into()));
    assert_eq!(WEEK.map(|week| week.to_string()), Some("2020-W53".into()));
    assert_eq!(NONE, [None; 3]);
    assert_eq!((DAYS, WEEKDAY, SUNDAY), (28, Weekday::Thursday, Some(Weekday::Sunday)));
}
