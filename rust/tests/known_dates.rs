//! Known dates, weeks, months and feasts, and the ends of `i64`.

use cellarcove::calendar::Weekday::{
    Friday, Monday, Saturday, Sunday, Thursday, Tuesday, Wednesday,
};
use cellarcove::calendar::{
    days_between, days_in_month, days_in_year, easter, first_weekday_on_or_after, is_leap_year,
    last_weekday_of_month, last_weekday_on_or_before, months_between, next_last_weekday,
    nth_weekday_of_month, weekday_of, weeks_in_year, years_between, Date, DateError, IsoWeek,
    Weekday, WeekdayError,
};
use std::fmt::Debug;

/// Asserts that the check holds, and shows the row if it does not.
fn holds_at(holds: bool, row: &impl Debug) {
    assert!(holds, "at {row:?}");
}

const MIN: i64 = i64::MIN;

const MAX: i64 = i64::MAX;

/// A year, a month and a day of the month.
type Parts = (i64, u8, u8);

/// The parts of a date, the day, the day of the year, and the day of the week.
const DATES: [(Parts, i64, u16, Weekday); 27] = [
    ((1970, 1, 1), 0, 1, Thursday),
    ((1969, 12, 31), -1, 365, Wednesday),
    ((2000, 2, 29), 11016, 60, Tuesday),
    ((2000, 3, 1), 11017, 61, Wednesday),
    ((2000, 12, 31), 11322, 366, Sunday),
    ((1900, 2, 28), -25509, 59, Wednesday),
    ((1900, 3, 1), -25508, 60, Thursday),
    ((1600, 2, 29), -135081, 60, Tuesday),
    ((1582, 10, 15), -141427, 288, Friday),
    ((1582, 10, 4), -141438, 277, Monday),
    ((1, 1, 1), -719162, 1, Monday),
    ((0, 12, 31), -719163, 366, Sunday),
    ((0, 2, 29), -719469, 60, Tuesday),
    ((0, 1, 1), -719528, 1, Saturday),
    ((-1, 12, 31), -719529, 365, Friday),
    ((-4, 2, 29), -720930, 60, Thursday),
    ((9999, 12, 31), 2932896, 365, Friday),
    ((2799999, 12, 31), 1021959471, 365, Friday),
    ((2800000, 1, 1), 1021959472, 1, Saturday),
    ((-25252734927764585, 6, 7), MIN, 158, Wednesday),
    ((-25252734927764585, 12, 31), MIN + 207, 365, Sunday),
    ((-25252734927764584, 1, 1), MIN + 208, 1, Monday),
    ((-25252734927764185, 6, 6), MIN + 146096, 157, Tuesday),
    ((25252734927768124, 7, 28), MAX - 146096, 210, Friday),
    ((25252734927768524, 1, 1), MAX - 208, 1, Saturday),
    ((25252734927768524, 1, 2), MAX - 207, 2, Sunday),
    ((25252734927768524, 7, 27), MAX, 209, Thursday),
];

/// Years, and whether they are leap years.
const YEARS: [(i64, bool); 8] = [
    (2000, true),
    (0, true),
    (-4, true),
    (2024, true),
    (1900, false),
    (-1, false),
    (2023, false),
    (-100, false),
];

/// The date of a year, a month and a day of the month.
fn date((year, month, day_of_month): Parts) -> Date {
    Date::new(year, month, day_of_month).expect("there is such a date")
}

/// The year, the month and the day of the month of a date.
fn parts(date: Option<Date>) -> Option<Parts> {
    let date = date?;
    Some((date.year(), date.month(), date.day_of_month()))
}

/// Returns `true` if the date is that of the day, and the day that of the date.
fn has_day(date: &Date, day: i64) -> bool {
    Date::from_day_number(day) == *date && date.day_number() == Some(day)
}

/// Returns `true` if the date is that of the day of its year, and the day that of the date.
fn has_day_of_year(date: &Date, day: u16) -> bool {
    Date::from_year_day(date.year(), day) == Some(*date) && date.day_of_year() == day
}

#[test]
fn known_dates() {
    for &(parts, day, day_of_year, weekday) in &DATES {
        let date = date(parts);
        let weekdays = (weekday_of(day), date.weekday());
        holds_at(has_day(&date, day), &("day", day));
        holds_at(has_day_of_year(&date, day_of_year), &("year_day", day));
        holds_at(weekdays == (weekday, weekday), &("weekday", day));
    }
    for (month, day) in [(2, 30), (4, 31), (0, 1), (13, 1), (1, 0), (1, 32)] {
        let date = Date::new(2000, month, day);
        holds_at(date.is_none(), &("Date::new", month, day));
    }
}

/// Beside the numbers as std writes them.
#[test]
fn strings_of_years_with_four_digits() {
    for year in 0..=9999 {
        for month in 1..=12 {
            let day = days_in_month(year, month);
            let string = format!("{year:04}-{month:02}-{day:02}");
            holds_at(date((year, month, day)).to_string() == string, &string);
        }
    }
}

/// Dates and their strings, by ISO 8601: a year of four digits has no sign. Any other has one, and as few zeros as four digits ask for.
const STRINGS_OF_DATES: [(Parts, &str); 10] = [
    ((2024, 2, 29), "2024-02-29"),
    ((0, 1, 1), "0000-01-01"),
    ((9999, 12, 31), "9999-12-31"),
    ((10000, 1, 1), "+10000-01-01"),
    ((-1, 12, 31), "-0001-12-31"),
    ((-999, 5, 6), "-0999-05-06"),
    ((-9999, 5, 6), "-9999-05-06"),
    ((-10000, 5, 6), "-10000-05-06"),
    ((MAX, 12, 31), "+9223372036854775807-12-31"),
    ((MIN, 1, 1), "-9223372036854775808-01-01"),
];

/// Strings of no date. Some have a year of fewer or of more digits than it is written with, or a year beyond the ends.
const NO_DATES: [&str; 29] = [
    "",
    "2024",
    "2024-02",
    "2024-02-30",
    "2023-02-29",
    "2024-2-29",
    "2024-02-29 ",
    " 2024-02-29",
    "20240229",
    "2024/02/29",
    "2024-02-+9",
    "999-01-01",
    "10000-01-01",
    "00001-01-01",
    "02024-02-29",
    "+2024-02-29",
    "+9999-12-31",
    "+09999-12-31",
    "+010000-01-01",
    "-0000-01-01",
    "-001-01-01",
    "-00001-01-01",
    "-09999-01-01",
    "--001-01-01",
    "+9223372036854775808-01-01",
    "-9223372036854775809-01-01",
    "+18446744073709551616-01-01",
    "2024-\u{0662}-29",
    "\u{662}\u{660}\u{662}\u{664}-02-29",
];

#[test]
fn strings_of_dates() {
    for &(parts, string) in &STRINGS_OF_DATES {
        let date = date(parts);
        holds_at(date.to_string() == string, &("to_string", string));
        holds_at(string.parse() == Ok(date), &("parse", string));
    }
    for string in NO_DATES {
        let is_error = string.parse::<Date>() == Err(DateError);
        holds_at(is_error, &("parse", string));
    }
}

/// Each place of a date has a character of more than one byte in turn, so that the string is cut within it.
#[test]
fn strings_of_other_bytes() {
    let string = "2024-02-29";
    for other in ['é', '‐', '𝟐'] {
        for place in 0..string.len() {
            let mut changed = string.to_string();
            changed.replace_range(place..=place, &other.to_string());
            let is_error = changed.parse::<Date>() == Err(DateError);
            holds_at(is_error, &("parse", changed));
        }
        let is_error = format!("{other}29").parse::<Date>() == Err(DateError);
        holds_at(is_error, &("parse", other));
    }
}

#[test]
fn leap_years() {
    for &(year, leap) in &YEARS {
        let has_leap_day = Date::new(year, 2, 29).is_some();
        let has_366_days = Date::from_year_day(year, 366).is_some();
        let found = (is_leap_year(year), has_leap_day, has_366_days);
        holds_at(found == (leap, leap, leap), &("is_leap_year", year));
    }
}

/// The first and the last date, beyond the days of `i64`.
#[test]
fn ends() {
    let (first, last) = (date((MIN, 1, 1)), date((MAX, 12, 31)));
    let days = (first.day_number(), last.day_number());
    let beyond = (first.previous(), last.next(), first.iso_week());
    holds_at(days == (None, None), &"day");
    holds_at(beyond == (None, None, None), &"next");
    holds_at(first.weekday() == Sunday, &"weekday");
}

/// The years of the first and the last day of `i64`.
const FIRST_YEAR: i64 = -25252734927764585;

const LAST_YEAR: i64 = 25252734927768524;

/// A date, a number of days, and the date this number of days later, or `None` where its year does not fit.
const DAYS_LATER: [(Parts, i64, Option<Parts>); 22] = [
    ((2000, 3, 1), -1, Some((2000, 2, 29))),
    ((2000, 2, 28), 366, Some((2001, 2, 28))),
    ((0, 1, 1), MAX, Some((25252734927766554, 7, 27))),
    ((0, 1, 1), MIN, Some((-25252734927766555, 6, 6))),
    ((FIRST_YEAR, 6, 7), -1, Some((FIRST_YEAR, 6, 6))),
    ((FIRST_YEAR, 6, 7), MAX, Some((1969, 12, 31))),
    ((FIRST_YEAR, 6, 7), MIN, Some((-50505469855531140, 11, 9))),
    ((LAST_YEAR, 7, 27), 1, Some((LAST_YEAR, 7, 28))),
    ((LAST_YEAR, 7, 27), MIN, Some((1969, 12, 31))),
    ((LAST_YEAR, 7, 27), MAX, Some((50505469855535079, 2, 20))),
    ((MAX, 1, 1), 0, Some((MAX, 1, 1))),
    ((MAX, 1, 1), 364, Some((MAX, 12, 31))),
    ((MAX, 12, 31), MIN, Some((9198119301927009253, 6, 4))),
    ((MIN, 1, 1), 0, Some((MIN, 1, 1))),
    ((MIN, 12, 31), -365, Some((MIN, 1, 1))),
    ((MIN, 1, 1), MAX, Some((-9198119301927009254, 7, 28))),
    ((MAX, 1, 1), 365, None),
    ((MAX, 12, 31), 1, None),
    ((MAX, 1, 1), MAX, None),
    ((MIN, 12, 31), -366, None),
    ((MIN, 1, 1), -1, None),
    ((MIN, 12, 31), MIN, None),
];

/// Two dates, and the days from the first to the second.
const DAYS_BETWEEN: [(Parts, Parts, Option<i64>); 3] = [
    ((FIRST_YEAR, 6, 7), (LAST_YEAR, 7, 27), None),
    ((LAST_YEAR, 7, 27), (LAST_YEAR, 7, 27), Some(0)),
    ((MAX, 12, 31), (MAX, 1, 1), Some(-364)),
];

#[test]
fn days_later() {
    for &(from, days, to) in &DAYS_LATER {
        let found = parts(date(from).plus_days(days));
        holds_at(found == to, &("plus_days", from, days));
    }
    for &(from, to, days) in &DAYS_BETWEEN {
        let found = days_between(&date(from), &date(to));
        holds_at(found == days, &("days_between", from, to));
    }
}

/// Returns `true` if the date is that of the week and of the day of the week, and both those of the date.
fn has_week(date: &Date, week: IsoWeek, weekday: Weekday) -> bool {
    Date::from_iso_week(week.year(), week.week(), weekday) == Some(*date)
        && date.iso_week() == Some(week)
        && date.weekday() == weekday
}

/// Returns the week of the year, which has it.
fn week_of(year: i64, week: u8) -> IsoWeek {
    IsoWeek::new(year, week).expect("the year has this week")
}

/// The parts of a date, and the year, the week and the day of the week.
const WEEKS: [(Parts, (i64, u8, Weekday)); 19] = [
    ((2005, 1, 1), (2004, 53, Saturday)),
    ((2005, 1, 2), (2004, 53, Sunday)),
    ((2005, 12, 31), (2005, 52, Saturday)),
    ((2006, 1, 1), (2005, 52, Sunday)),
    ((2007, 1, 1), (2007, 1, Monday)),
    ((2007, 12, 31), (2008, 1, Monday)),
    ((2008, 1, 1), (2008, 1, Tuesday)),
    ((2008, 12, 29), (2009, 1, Monday)),
    ((2010, 1, 3), (2009, 53, Sunday)),
    ((2010, 1, 1), (2009, 53, Friday)),
    ((2014, 1, 1), (2014, 1, Wednesday)),
    ((2026, 1, 1), (2026, 1, Thursday)),
    ((1970, 1, 1), (1970, 1, Thursday)),
    ((0, 1, 1), (-1, 52, Saturday)),
    ((MIN, 1, 2), (MIN, 1, Monday)),
    ((MIN, 1, 8), (MIN, 1, Sunday)),
    ((MAX, 12, 27), (MAX, 52, Sunday)),
    ((MAX, 12, 28), (MAX, 53, Monday)),
    ((MAX, 12, 31), (MAX, 53, Thursday)),
];

/// Years, weeks and days of the week that no date has, and those of dates beyond the ends.
const NO_WEEKS: [(i64, u8, Weekday); 9] = [
    (2005, 53, Monday),
    (2005, 0, Monday),
    (2004, 54, Monday),
    (2004, 255, Monday),
    (MAX, 53, Friday),
    (MAX, 53, Saturday),
    (MAX, 53, Sunday),
    (MIN, 0, Sunday),
    (MIN, 53, Monday),
];

#[test]
fn known_weeks() {
    for &(parts, (year, week, weekday)) in &WEEKS {
        let is_known = has_week(&date(parts), week_of(year, week), weekday);
        holds_at(is_known, &("iso_week", parts));
    }
    for &(year, week, weekday) in &NO_WEEKS {
        let date = Date::from_iso_week(year, week, weekday);
        holds_at(date.is_none(), &("from_iso_week", year, week, weekday));
    }
}

/// Years and weeks, and whether the year has the week.
const HAS_WEEK: [(i64, u8, bool); 10] = [
    (2004, 53, true),
    (2005, 53, false),
    (2005, 52, true),
    (2005, 1, true),
    (2005, 0, false),
    (2004, 54, false),
    (MIN, 1, true),
    (MIN, 53, false),
    (MAX, 53, true),
    (MAX, 255, false),
];

#[test]
fn weeks_by_number() {
    for &(year, week, is_there) in &HAS_WEEK {
        let expected = is_there.then_some((year, week));
        let found = IsoWeek::new(year, week).map(|found| (found.year(), found.week()));
        holds_at(found == expected, &("IsoWeek::new", year, week));
    }
    for &(parts, (year, week, weekday)) in &WEEKS {
        let found = week_of(year, week).date_on(weekday);
        holds_at(found == Some(date(parts)), &("date_on", parts));
    }
    for &(year, week, weekday) in &NO_WEEKS {
        let found = IsoWeek::new(year, week).and_then(|week| week.date_on(weekday));
        holds_at(found.is_none(), &("date_on", year, week, weekday));
    }
}

/// Years and weeks, with the string of the week.
const STRINGS_OF_WEEKS: [(i64, u8, &str); 7] = [
    (2004, 53, "2004-W53"),
    (1970, 1, "1970-W01"),
    (0, 52, "0000-W52"),
    (-1, 2, "-0001-W02"),
    (10000, 10, "+10000-W10"),
    (MAX, 53, "+9223372036854775807-W53"),
    (MIN, 1, "-9223372036854775808-W01"),
];

const NAMES: [(Weekday, &str); 7] = [
    (Sunday, "Sunday"),
    (Monday, "Monday"),
    (Tuesday, "Tuesday"),
    (Wednesday, "Wednesday"),
    (Thursday, "Thursday"),
    (Friday, "Friday"),
    (Saturday, "Saturday"),
];

#[test]
fn strings_of_weeks() {
    for &(year, week, string) in &STRINGS_OF_WEEKS {
        let week = week_of(year, week);
        holds_at(week.to_string() == string, &("to_string", string));
        holds_at(string.parse() == Ok(week), &("parse", string));
    }
    for &(weekday, name) in &NAMES {
        let is_read = name.parse() == Ok(weekday);
        holds_at(is_read && weekday.to_string() == name, &("parse", name));
    }
    for name in ["", "Sun", "sunday", "Sunday ", "SUNDAY"] {
        let is_error = name.parse::<Weekday>() == Err(WeekdayError);
        holds_at(is_error, &("parse", name));
    }
}

/// The weeks and the days of some years.
const WEEKS_OF_YEARS: [((u8, u16), &[i64]); 4] = [
    ((53, 366), &[2004, 2020]),
    ((53, 365), &[2009, 2015, MAX]),
    ((52, 366), &[2024, 0, MIN]),
    ((52, 365), &[2005, 1900]),
];

/// A year and the number of a week.
type Week = (i64, u8);

/// A week, a number of weeks, and the week this number of weeks later, or `None` where its year does not fit: by
/// `isocalendar` of Python, 20871 weeks to 400 years.
const WEEKS_LATER: [(Week, i64, Option<Week>); 15] = [
    ((2004, 53), 0, Some((2004, 53))),
    ((2004, 53), 1, Some((2005, 1))),
    ((2004, 53), -53, Some((2003, 52))),
    ((2020, 53), 1, Some((2021, 1))),
    ((2020, 53), -53, Some((2019, 52))),
    ((2026, 1), 52, Some((2026, 53))),
    ((2026, 1), 53, Some((2027, 1))),
    ((0, 1), -1, Some((-1, 52))),
    ((1970, 1), MAX, Some((176769144494367851, 52))),
    ((1970, 1), MIN, Some((-176769144494363912, 1))),
    ((MIN, 1), MAX, Some((-9046602892360409927, 52))),
    ((MAX, 53), 1, None),
    ((MAX, 1), MAX, None),
    ((MIN, 1), -1, None),
    ((MIN, 52), MIN, None),
];

#[test]
fn weeks_later() {
    for &((year, week), weeks, later) in &WEEKS_LATER {
        let from = week_of(year, week);
        let found = from.plus_weeks(weeks);
        let expected = later.map(|(year, week)| week_of(year, week));
        holds_at(found == expected, &("plus_weeks", from, weeks));
        let between = found.and_then(|later| from.weeks_between(&later));
        holds_at(between == found.and(Some(weeks)), &("weeks_between", from, weeks));
    }
    let (first, last) = (week_of(MIN, 1), week_of(MAX, 53));
    let ends = (first.weeks_between(&last), last.weeks_between(&first));
    holds_at(ends == (None, None), &"the ends");
    let beyond = week_of(-9046602892360409926, 1);
    let weeks = (first.weeks_between(&beyond), beyond.weeks_between(&first));
    holds_at(weeks == (None, Some(MIN)), &"weeks_between");
}

/// A day of the week, a number of days, and the day of the week this number of days later.
const WEEKDAYS_LATER: [(Weekday, i64, Weekday); 10] = [
    (Monday, 10, Thursday),
    (Monday, -1, Sunday),
    (Sunday, 0, Sunday),
    (Sunday, 7, Sunday),
    (Sunday, 1, Monday),
    (Wednesday, -3, Sunday),
    (Saturday, 1_000_000, Sunday),
    (Thursday, MAX, Thursday),
    (Thursday, MIN, Wednesday),
    (Friday, -700, Friday),
];

#[test]
fn weekdays_later() {
    for &(from, days, to) in &WEEKDAYS_LATER {
        holds_at(from.plus_days(days) == to, &("plus_days", from, days));
    }
}

/// The parts of a date, and the last day of its month, by `monthrange` of Python, 400 years to its years.
const LAST_OF_MONTHS: [(Parts, u8); 16] = [
    ((2000, 2, 1), 29),
    ((1900, 2, 28), 28),
    ((2023, 2, 28), 28),
    ((2024, 2, 29), 29),
    ((2026, 4, 30), 30),
    ((2026, 7, 31), 31),
    ((2026, 8, 1), 31),
    ((2026, 12, 5), 31),
    ((1, 1, 1), 31),
    ((9999, 12, 31), 31),
    ((0, 2, 3), 29),
    ((-4, 2, 1), 29),
    ((-100, 2, 1), 28),
    ((MAX, 2, 1), 28),
    ((MIN, 2, 9), 29),
    ((MAX, 12, 31), 31),
];

#[test]
fn last_of_months() {
    for &((year, month, day), last) in &LAST_OF_MONTHS {
        let found = date((year, month, day)).last_of_month();
        holds_at(found == date((year, month, last)), &("last_of_month", year, month));
    }
}

/// Of 400 years those with 53 weeks, by `isocalendar` of Python.
#[rustfmt::skip]
const WITH_53_WEEKS: [i64; 71] = [
    2004, 2009, 2015, 2020, 2026, 2032, 2037, 2043, 2048, 2054, 2060, 2065, 2071, 2076, 2082, 2088, 2093, 2099,
    2105, 2111, 2116, 2122, 2128, 2133, 2139, 2144, 2150, 2156, 2161, 2167, 2172, 2178, 2184, 2189, 2195,
    2201, 2207, 2212, 2218, 2224, 2229, 2235, 2240, 2246, 2252, 2257, 2263, 2268, 2274, 2280, 2285, 2291, 2296,
    2303, 2308, 2314, 2320, 2325, 2331, 2336, 2342, 2348, 2353, 2359, 2364, 2370, 2376, 2381, 2387, 2392, 2398,
];

/// The weeks repeat after 400 years.
#[test]
fn weeks_of_400_years() {
    for year in 2000..2400 {
        let is_there = WITH_53_WEEKS.contains(&year);
        for year in [year, year - 400, year - 4000, year + 4_000_000] {
            let weeks = if is_there { 53 } else { 52 };
            holds_at(weeks_in_year(year) == weeks, &("weeks_in_year", year));
            let has_week = IsoWeek::new(year, 53).is_some();
            holds_at(has_week == is_there, &("IsoWeek::new", year));
            let has_date = Date::from_iso_week(year, 53, Thursday).is_some();
            holds_at(has_date == is_there, &("from_iso_week", year));
        }
    }
}

#[test]
fn weeks_of_years() {
    for &(expected, years) in &WEEKS_OF_YEARS {
        for &year in years {
            let found = (weeks_in_year(year), days_in_year(year));
            holds_at(found == expected, &("weeks_in_year", year));
        }
    }
}

/// A date, a number of months, and the date this number of months later, or `None` where its year does not fit.
const MONTHS_LATER: [(Parts, i64, Option<Parts>); 20] = [
    ((2000, 1, 31), 0, Some((2000, 1, 31))),
    ((2000, 1, 31), 1, Some((2000, 2, 29))),
    ((1999, 1, 31), 1, Some((1999, 2, 28))),
    ((1900, 1, 29), 1, Some((1900, 2, 28))),
    ((2000, 1, 29), 2, Some((2000, 3, 29))),
    ((2000, 3, 31), -1, Some((2000, 2, 29))),
    ((2000, 12, 31), 2, Some((2001, 2, 28))),
    ((2000, 1, 15), -1, Some((1999, 12, 15))),
    ((2026, 5, 31), -6, Some((2025, 11, 30))),
    ((0, 1, 1), -1, Some((-1, 12, 1))),
    ((1, 3, 31), -13, Some((0, 2, 29))),
    ((0, 1, 1), MAX, Some((768614336404564650, 8, 1))),
    ((0, 1, 1), MIN, Some((-768614336404564651, 5, 1))),
    ((MAX, 1, 31), 11, Some((MAX, 12, 31))),
    ((MIN, 12, 31), -11, Some((MIN, 1, 31))),
    ((MIN, 3, 31), -1, Some((MIN, 2, 29))),
    ((MIN, 1, 1), -1, None),
    ((MAX, 12, 31), 1, None),
    ((MIN, 1, 1), MIN, None),
    ((MAX, 12, 31), MAX, None),
];

#[test]
fn months_later() {
    for &(from, months, to) in &MONTHS_LATER {
        let found = parts(date(from).plus_months(months));
        holds_at(found == to, &("plus_months", from, months));
    }
}

/// A year, a month, a day of the week, its place in the month, and the day of the month, or `None` where there is
/// no such day. The calendar repeats after 400 years, so the weekdays of the first and the last year are those of
/// 2192 and 2207.
const PLACES: [(i64, u8, Weekday, u8, Option<u8>); 24] = [
    (2020, 11, Thursday, 4, Some(26)),
    (2021, 11, Thursday, 4, Some(25)),
    (2022, 11, Thursday, 4, Some(24)),
    (2023, 11, Thursday, 4, Some(23)),
    (2024, 11, Thursday, 4, Some(28)),
    (2025, 11, Thursday, 4, Some(27)),
    (2026, 11, Thursday, 4, Some(26)),
    (1970, 1, Monday, 1, Some(5)),
    (1970, 1, Monday, 2, Some(12)),
    (1970, 1, Monday, 3, Some(19)),
    (1970, 1, Monday, 4, Some(26)),
    (2026, 1, Friday, 5, Some(30)),
    (2024, 2, Thursday, 5, Some(29)),
    (2021, 2, Sunday, 4, Some(28)),
    (MAX, 12, Thursday, 5, Some(31)),
    (MIN, 1, Sunday, 1, Some(1)),
    (2026, 11, Friday, 5, None),
    (2024, 2, Friday, 5, None),
    (1970, 1, Monday, 5, None),
    (2026, 11, Thursday, 0, None),
    (2026, 11, Thursday, 6, None),
    (2026, 11, Thursday, u8::MAX, None),
    (2026, 0, Thursday, 1, None),
    (2026, 13, Thursday, 1, None),
];

/// A year, a month, a day of the week, and the last day of the month that has it.
const LAST_OF_MONTH: [(i64, u8, Weekday, Option<u8>); 13] = [
    (2026, 10, Friday, Some(30)),
    (2026, 11, Thursday, Some(26)),
    (2024, 2, Thursday, Some(29)),
    (2024, 2, Friday, Some(23)),
    (2021, 2, Sunday, Some(28)),
    (2021, 2, Monday, Some(22)),
    (1970, 1, Monday, Some(26)),
    (1970, 1, Friday, Some(30)),
    (MAX, 12, Thursday, Some(31)),
    (MIN, 1, Sunday, Some(29)),
    (2026, 0, Friday, None),
    (2026, 13, Friday, None),
    (2026, u8::MAX, Friday, None),
];

/// The parts of the day of a month.
fn in_month(year: i64, month: u8, day: Option<u8>) -> Option<Parts> {
    Some((year, month, day?))
}

/// A date, a day of the week, and the next date that is the last such day of its month.
const NEXT_LAST: [(Parts, Weekday, Option<Parts>); 10] = [
    ((2026, 10, 30), Friday, Some((2026, 11, 27))),
    ((2026, 10, 29), Friday, Some((2026, 10, 30))),
    ((2026, 11, 28), Friday, Some((2026, 12, 25))),
    ((2026, 12, 31), Friday, Some((2027, 1, 29))),
    ((2024, 1, 31), Thursday, Some((2024, 2, 29))),
    ((2024, 2, 29), Thursday, Some((2024, 3, 28))),
    ((MAX, 12, 26), Sunday, Some((MAX, 12, 27))),
    ((MAX, 12, 27), Sunday, None),
    ((MAX, 12, 31), Friday, None),
    ((MIN, 1, 1), Monday, Some((MIN, 1, 30))),
];

#[test]
fn next_last_weekdays() {
    for &(after, weekday, next) in &NEXT_LAST {
        let found = parts(next_last_weekday(&date(after), weekday));
        holds_at(found == next, &("next_last_weekday", after, weekday));
    }
}

#[test]
fn places_of_weekdays() {
    for &(year, month, weekday, n, day) in &PLACES {
        let found = parts(nth_weekday_of_month(year, month, weekday, n));
        let row = ("nth_weekday_of_month", year, month, weekday, n);
        holds_at(found == in_month(year, month, day), &row);
    }
    for &(year, month, weekday, day) in &LAST_OF_MONTH {
        let found = parts(last_weekday_of_month(year, month, weekday));
        let row = ("last_weekday_of_month", year, month, weekday);
        holds_at(found == in_month(year, month, day), &row);
    }
}

const FIRST_FROM: [(i64, Weekday, Option<i64>); 11] = [
    (0, Thursday, Some(0)),
    (0, Friday, Some(1)),
    (0, Wednesday, Some(6)),
    (1, Thursday, Some(7)),
    (-1, Thursday, Some(0)),
    (-7, Thursday, Some(-7)),
    (3, Sunday, Some(3)),
    (20779, Thursday, Some(20783)),
    (i64::MAX, Thursday, Some(i64::MAX)),
    (i64::MIN, Monday, Some(i64::MIN + 5)),
    (i64::MAX, Friday, None),
];

const LAST_UP_TO: [(i64, Weekday, Option<i64>); 14] = [
    (0, Thursday, Some(0)),
    (0, Friday, Some(-6)),
    (0, Wednesday, Some(-1)),
    (-1, Thursday, Some(-7)),
    (3, Sunday, Some(3)),
    (4, Sunday, Some(3)),
    (2, Sunday, Some(-4)),
    (20783, Monday, Some(20780)),
    (i64::MIN, Wednesday, Some(i64::MIN)),
    (i64::MAX, Thursday, Some(i64::MAX)),
    (i64::MAX, Friday, Some(i64::MAX - 6)),
    (i64::MIN, Tuesday, None),
    (i64::MIN + 5, Tuesday, None),
    (i64::MIN + 1, Thursday, Some(i64::MIN + 1)),
];

#[test]
fn first_and_last_weekdays() {
    for &(day, weekday, first) in &FIRST_FROM {
        let found = first_weekday_on_or_after(day, weekday);
        holds_at(found == first, &("first_weekday", day, weekday));
    }
    for &(day, weekday, last) in &LAST_UP_TO {
        let found = last_weekday_on_or_before(day, weekday);
        holds_at(found == last, &("last_weekday", day, weekday));
    }
}

/// The days of the week in the order of their numbers by ISO 8601.
const BY_NUMBER: [Weekday; 7] = [
    Monday, Tuesday, Wednesday, Thursday, Friday, Saturday, Sunday,
];

#[test]
fn iso_numbers() {
    for number in 0..=u8::MAX {
        let place = usize::from(number.wrapping_sub(1));
        let found = Weekday::from_iso_number(number);
        let is_known = found == BY_NUMBER.get(place).copied();
        holds_at(is_known, &("from_iso_number", number));
        if let Some(weekday) = found {
            holds_at(weekday.iso_number() == number, &("iso_number", number));
        }
    }
}

/// Two dates, and the number of whole months from the first to the second, or `None` where it does not fit.
const MONTHS_BETWEEN: [(Parts, Parts, Option<i64>); 25] = [
    ((2000, 1, 31), (2000, 2, 29), Some(1)),
    ((2000, 1, 31), (2000, 2, 28), Some(0)),
    ((2000, 1, 31), (2000, 1, 31), Some(0)),
    ((2000, 1, 31), (2000, 3, 30), Some(1)),
    ((2000, 1, 31), (2000, 3, 31), Some(2)),
    ((2000, 2, 29), (2001, 2, 28), Some(12)),
    ((2000, 2, 29), (2001, 2, 27), Some(11)),
    ((2000, 2, 29), (2004, 2, 29), Some(48)),
    ((2000, 3, 1), (2000, 2, 29), Some(-1)),
    ((2000, 3, 1), (2000, 2, 1), Some(-1)),
    ((2000, 3, 1), (2000, 1, 31), Some(-2)),
    ((2000, 3, 31), (2000, 2, 29), Some(-1)),
    ((2000, 3, 31), (2000, 2, 28), Some(-2)),
    ((-1, 12, 31), (0, 1, 30), Some(0)),
    ((0, 1, 1), (768614336404564650, 8, 1), Some(MAX)),
    ((0, 1, 2), (768614336404564650, 9, 1), Some(MAX)),
    ((0, 1, 1), (-768614336404564651, 5, 1), Some(MIN)),
    ((MAX, 1, 31), (MAX, 12, 31), Some(11)),
    ((0, 1, 1), (768614336404564650, 9, 1), None),
    ((0, 1, 1), (-768614336404564651, 4, 30), None),
    ((MIN, 1, 1), (MAX, 12, 31), None),
    ((MAX, 12, 31), (MIN, 1, 1), None),
    ((MIN, 1, 1), (MIN, 1, 1), Some(0)),
    ((MAX, 12, 30), (MAX, 12, 31), Some(0)),
    ((MAX, 12, 31), (MAX, 12, 30), Some(-1)),
];

#[test]
fn months_between_dates() {
    for &(from, to, months) in &MONTHS_BETWEEN {
        let found = months_between(&date(from), &date(to));
        holds_at(found == months, &("months_between", from, to));
    }
}

/// Two dates, and the number of whole years from the first to the second, or `None` if it does not fit.
const YEARS_BETWEEN: [(Parts, Parts, Option<i64>); 31] = [
    ((2000, 2, 29), (2001, 2, 28), Some(1)),
    ((2000, 2, 29), (2001, 2, 27), Some(0)),
    ((2000, 2, 29), (2001, 3, 1), Some(1)),
    ((2000, 2, 29), (2004, 2, 28), Some(3)),
    ((2000, 2, 29), (2004, 2, 29), Some(4)),
    ((2000, 2, 29), (2000, 2, 29), Some(0)),
    ((2000, 2, 29), (2000, 2, 28), Some(-1)),
    ((2000, 2, 29), (1999, 3, 1), Some(-1)),
    ((2000, 2, 29), (1999, 2, 28), Some(-1)),
    ((2000, 2, 29), (1999, 2, 27), Some(-2)),
    ((2000, 3, 1), (2001, 2, 28), Some(0)),
    ((2000, 3, 1), (2001, 3, 1), Some(1)),
    ((2000, 3, 1), (2000, 2, 29), Some(-1)),
    ((2000, 3, 1), (1999, 3, 1), Some(-1)),
    ((2000, 3, 1), (1999, 2, 28), Some(-2)),
    ((1600, 2, 29), (1900, 2, 28), Some(300)),
    ((-1, 12, 31), (0, 1, 1), Some(0)),
    ((-1, 12, 31), (0, 12, 31), Some(1)),
    ((0, 1, 1), (-1, 12, 31), Some(-1)),
    ((0, 1, 1), (MAX, 12, 31), Some(MAX)),
    ((-1, 12, 31), (MAX, 12, 30), Some(MAX)),
    ((-1, 12, 31), (MAX, 12, 31), None),
    ((MAX, 12, 31), (MAX, 12, 30), Some(-1)),
    ((0, 1, 1), (MIN, 1, 1), Some(MIN)),
    ((0, 1, 2), (MIN, 1, 1), None),
    ((MIN, 1, 1), (MIN, 1, 1), Some(0)),
    ((MIN, 1, 1), (-1, 1, 1), Some(MAX)),
    ((MIN, 1, 2), (0, 1, 1), Some(MAX)),
    ((MIN, 1, 1), (0, 1, 1), None),
    ((MIN, 1, 1), (MAX, 12, 31), None),
    ((MAX, 12, 31), (MIN, 1, 1), None),
];

#[test]
fn years_between_dates() {
    for &(from, to, years) in &YEARS_BETWEEN {
        let found = years_between(&date(from), &date(to));
        holds_at(found == years, &("years_between", from, to));
    }
}

/// The end of each month is a whole number of months after the last day of any longer month.
#[test]
fn ends_of_months() {
    let from = date((1999, 12, 31));
    for months in 1..=48_u8 {
        let place = 11 + months;
        let (year, month) = (1999 + i64::from(place / 12), place % 12 + 1);
        let last = date((year, month, days_in_month(year, month)));
        let before = last.previous().expect("there is a day before");
        let found = (months_between(&from, &before), months_between(&from, &last));
        let expected = (Some(i64::from(months) - 1), Some(i64::from(months)));
        holds_at(found == expected, &("months_between", months));
    }
}

/// The digits of the year, the month and the day of the month.
const EASTERS: [i64; 49] = [
    15830410, 17000411, 18000413, 18180322, 18860425, 19000415, 19430425, 19540418, 19610402,
    19810419, 20000423, 20010415, 20020331, 20030420, 20040411, 20050327, 20060416, 20070408,
    20080323, 20090412, 20100404, 20110424, 20120408, 20130331, 20140420, 20150405, 20160327,
    20170416, 20180401, 20190421, 20200412, 20210404, 20220417, 20230409, 20240331, 20250420,
    20260405, 20270328, 20280416, 20290401, 20300421, 20380425, 22850322, 23530322, 31650418,
    32600418, 47630407, 75150425, 76100425,
];

#[test]
fn known_easters() {
    for &digits in &EASTERS {
        let found = easter(digits / 10000);
        let (month, day) = (i64::from(found.month()), i64::from(found.day_of_month()));
        let expected = (digits / 100 % 100, digits % 100);
        holds_at((month, day) == expected, &("easter", digits));
    }
    for year in [MIN, MAX, -1, 0] {
        let found = easter(year);
        let is_sunday = found.year() == year && found.weekday() == Sunday;
        let is_in_spring = found.month() == 3 || found.month() == 4;
        holds_at(is_sunday && is_in_spring, &("easter", year));
    }
}
