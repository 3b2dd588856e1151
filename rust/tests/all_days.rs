//! Each day of the years from -800 to 800 and of the eras at both ends of `i64`, and months, weeks and Easter, against a
//! count of days by years and months.

#[macro_use]
mod common;

use cellarcove::calendar::{
    days_between, days_in_month, days_in_year, easter, first_weekday_on_or_after, is_leap_year,
    last_weekday_of_month, last_weekday_on_or_before, months_between, next_last_weekday,
    nth_weekday_of_month, weekday_of, weeks_in_year, years_between, Date, IsoWeek, Weekday,
};

/// The days of 400 years.
const ERA: i64 = 146097;

/// The day of 1 January of year -800, a Saturday.
const FIRST: i64 = -719528 - 2 * ERA;

/// The days of the week from that of day 0 on.
const WEEKDAYS: [Weekday; 7] = [
    Weekday::Thursday,
    Weekday::Friday,
    Weekday::Saturday,
    Weekday::Sunday,
    Weekday::Monday,
    Weekday::Tuesday,
    Weekday::Wednesday,
];

fn weekday_at(day: i64) -> Weekday {
    WEEKDAYS[day.rem_euclid(7) as usize]
}

fn is_leap(year: i64) -> bool {
    year % 4 == 0 && (year % 100 != 0 || year % 400 == 0)
}

fn month_length(year: i64, month: u8) -> u8 {
    match month {
        2 => 28 + u8::from(is_leap(year)),
        4 | 6 | 9 | 11 => 30,
        _ => 31,
    }
}

/// The months of some years from one on, each with the day of its first.
fn months(year: i64, years: i64, first: i64) -> impl Iterator<Item = (i64, u8, i64)> {
    let months = (year..year + years).flat_map(|year| (1..=12).map(move |month| (year, month)));
    months.scan(first, |next, (year, month)| {
        let first = *next;
        *next += i64::from(month_length(year, month));
        Some((year, month, first))
    })
}

/// The days of these months, each as a day, a year, a month and a day of the month.
fn days(year: i64, years: i64, first: i64) -> impl Iterator<Item = (i64, i64, u8, u8)> {
    months(year, years, first).flat_map(|(year, month, first)| {
        (1..=month_length(year, month)).map(move |d| (first + i64::from(d) - 1, year, month, d))
    })
}

fn date(year: i64, month: u8, day: u8) -> Date {
    Date::new(year, month, day).expect("there is such a date")
}

#[test]
fn each_day() {
    let mut last: Option<Date> = None;
    for (day, year, month, day_of_month) in days(-800, 1600, FIRST) {
        let found = Date::from_day_number(day);
        let parts = (found.year(), found.month(), found.day_of_month());
        assert_eq!(parts, (year, month, day_of_month), "{day}");
        returns! {
            (found.day_number(), found) => (Some(day), date(year, month, day_of_month));
            (weekday_of(day), found.weekday()) => (weekday_at(day), weekday_at(day));
            weekday_at(FIRST).plus_days(day - FIRST) => weekday_at(day);
            found.last_of_month() => date(year, month, month_length(year, month));
        }
        if let Some(last) = last {
            assert_eq!((last.next(), found.previous()), (Some(found), Some(last)));
            assert!(last < found, "{day}");
        }
        last = Some(found);
    }
    assert_eq!(
        last.and_then(|date| date.day_number()),
        Some(FIRST + 4 * ERA - 1)
    );
}

#[test]
fn each_day_of_its_year() {
    let mut first = FIRST;
    for (day, year, month, day_of_month) in days(-800, 1600, FIRST) {
        if (month, day_of_month) == (1, 1) {
            first = day;
        }
        let place = (day - first + 1) as u16;
        let found = date(year, month, day_of_month);
        assert_eq!(found.day_of_year(), place, "{day}");
        assert_eq!(Date::from_year_day(year, place), Some(found), "{day}");
        if (month, day_of_month) == (12, 31) {
            assert_eq!(
                (days_in_year(year), is_leap_year(year)),
                (place, place == 366)
            );
        }
    }
}

/// Week 1 is the one that has 4 January. The first Monday is 3 January of year -800.
#[test]
fn each_day_of_its_week() {
    let first = IsoWeek::new(-801, 52).expect("the year has this week");
    let (mut week, mut weeks) = (first, 0);
    for (day, year, month, day_of_month) in days(-800, 1600, FIRST) {
        let weekday = weekday_at(day);
        if weekday == Weekday::Monday {
            let begins = matches!((month, day_of_month), (12, 29..) | (1, ..=4));
            let next = if begins {
                (week.year() + 1, 1)
            } else {
                (week.year(), week.week() + 1)
            };
            week = IsoWeek::new(next.0, next.1).expect("the year has this week");
            weeks += 1;
            returns! {
                (first.plus_weeks(weeks), week.plus_weeks(-weeks)) => (Some(week), Some(first));
                (first.weeks_between(&week), week.weeks_between(&first))
                    => (Some(weeks), Some(-weeks));
            }
        }
        let found = date(year, month, day_of_month);
        assert_eq!(found.iso_week(), Some(week), "{day}");
        assert_eq!(
            Date::from_iso_week(week.year(), week.week(), weekday),
            Some(found),
            "{day}"
        );
        if (month, day_of_month) == (12, 28) {
            assert_eq!(Some(week), IsoWeek::new(year, weeks_in_year(year)));
            let numbers = (0..=255).filter(|number| IsoWeek::new(year, *number).is_some());
            assert!(numbers.eq(1..=week.week()), "{year}");
        }
    }
}

#[test]
fn each_day_at_the_ends() {
    let (mut first, mut last) = (
        date(-25252734927764585, 6, 7),
        date(25252734927768524, 7, 27),
    );
    for day in i64::MIN..i64::MIN + ERA {
        let mirrored = -1 - day;
        returns! {
            (Date::from_day_number(day), first.day_number()) => (first, Some(day));
            (Date::from_day_number(mirrored), last.day_number()) => (last, Some(mirrored));
        }
        first = first.next().expect("there is a next day");
        last = last.previous().expect("there is a day before");
    }
}

#[test]
fn weekdays_of_months() {
    for (year, month, first) in months(1600, 400, -135140) {
        let length = month_length(year, month);
        assert_eq!(days_in_month(year, month), length, "{year}-{month}");
        for weekday in WEEKDAYS {
            let found: Vec<Date> = (1..=length)
                .filter(|d| weekday_at(first + i64::from(*d) - 1) == weekday)
                .map(|d| date(year, month, d))
                .collect();
            let last = last_weekday_of_month(year, month, weekday);
            assert_eq!(last, found.last().copied(), "{year}-{month} {weekday:?}");
            for place in 0..=6 {
                let at = usize::from(place).checked_sub(1).and_then(|i| found.get(i));
                let nth = nth_weekday_of_month(year, month, weekday, place);
                assert_eq!(nth, at.copied(), "{year}-{month} {weekday:?} {place}");
            }
        }
    }
}

/// The days that are the last of a day of the week in the months of 400 years, in order.
fn last_days(weekday: Weekday) -> Vec<i64> {
    let last = |(year, month, first)| {
        let length = i64::from(month_length(year, month));
        (first..first + length).rfind(|day| weekday_at(*day) == weekday)
    };
    months(1600, 400, -135140).filter_map(last).collect()
}

#[test]
fn next_last_weekdays() {
    for weekday in WEEKDAYS {
        let last = last_days(weekday);
        for pair in last.windows(2) {
            let next = Some(Date::from_day_number(pair[1]));
            for day in pair[0]..pair[1] {
                let after = Date::from_day_number(day);
                assert_eq!(
                    next_last_weekday(&after, weekday),
                    next,
                    "{day} {weekday:?}"
                );
            }
        }
    }
}

#[test]
fn weekdays_within_a_week() {
    for from in [-500, i64::MIN + 7, i64::MAX - 1007] {
        for day in from..from + 1000 {
            for weekday in WEEKDAYS {
                let first = (day..day + 7).find(|d| weekday_at(*d) == weekday);
                let last = (day - 6..=day).rev().find(|d| weekday_at(*d) == weekday);
                assert_eq!(first_weekday_on_or_after(day, weekday), first, "{day}");
                assert_eq!(last_weekday_on_or_before(day, weekday), last, "{day}");
            }
        }
    }
}

/// The last day of a month that is too short stands for a later one.
#[test]
fn months_later() {
    for (_, year, month, day_of_month) in days(1999, 3, 10592) {
        let from = date(year, month, day_of_month);
        for count in -40..=40 {
            let place = 12 * year + i64::from(month) - 1 + count;
            let (year, month) = (place.div_euclid(12), place.rem_euclid(12) as u8 + 1);
            let expected = date(year, month, day_of_month.min(month_length(year, month)));
            assert_eq!(from.plus_months(count), Some(expected), "{from} {count}");
        }
    }
}

/// 29 February becomes 28 February in the years that are no leap years.
#[test]
fn years_later() {
    let leap_day = date(2000, 2, 29);
    for years in -401..=401 {
        let year = 2000 + years;
        let expected = date(year, 2, month_length(year, 2));
        assert_eq!(leap_day.plus_months(12 * years), Some(expected), "{year}");
    }
}

/// The most months and the most years that lead no further.
#[test]
fn whole_months_and_years() {
    for (day, year, month, day_of_month) in days(1999, 2, 10592).step_by(3) {
        let from = date(year, month, day_of_month);
        for (other, year, month, day_of_month) in days(1999, 2, 10592).step_by(4) {
            let to = date(year, month, day_of_month);
            let reached = |count: &i64| from.plus_months(*count).is_some_and(|date| date <= to);
            let expected = (-25..=25).rev().find(reached);
            assert_eq!(months_between(&from, &to), expected, "{from} {to}");
            let reached = |count: &i64| reached(&(12 * count));
            let expected = (-3..=3).rev().find(reached);
            assert_eq!(years_between(&from, &to), expected, "{from} {to}");
            assert_eq!(days_between(&from, &to), Some(other - day), "{from} {to}");
            assert_eq!(from.plus_days(other - day), Some(to), "{from} {to}");
        }
    }
}

/// Easter by the rule that Jean Meeus gives.
fn easter_by_meeus(year: i64) -> (u8, u8) {
    let (a, b, c) = (
        year.rem_euclid(19),
        year.div_euclid(100),
        year.rem_euclid(100),
    );
    let (d, e, f) = (b.div_euclid(4), b.rem_euclid(4), (b + 8).div_euclid(25));
    let h = (19 * a + b - d - (b - f + 1).div_euclid(3) + 15).rem_euclid(30);
    let x = (32 + 2 * e + 2 * (c / 4) - h - c % 4).rem_euclid(7);
    let m = (a + 11 * h + 22 * x) / 451;
    let days = h + x - 7 * m + 114;
    ((days / 31) as u8, (days % 31 + 1) as u8)
}

#[test]
fn easters() {
    for year in -20000..=20000 {
        let found = easter(year);
        let parts = (found.month(), found.day_of_month());
        assert_eq!(
            (found.year(), parts),
            (year, easter_by_meeus(year)),
            "{year}"
        );
    }
}
