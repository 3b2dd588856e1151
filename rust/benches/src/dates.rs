//! Calls of dates beside those of `chrono`, at random days of the years 1600 to 2399. `chrono` stores the day of the year and the
//! weekday of 1 January, so that it reads a weekday from a table.

use crate::print;
use cellarcove::calendar::{days_between, Date, Weekday};
use chrono::{Datelike, Duration, Months, NaiveDate};
use std::hint::black_box;
use std::time::Instant;

/// The number of inputs of a pass.
const INPUTS: usize = 4096;

/// A call of each input.
type Pass = Box<dyn Fn()>;

/// A call, here and there.
struct Row {
    name: &'static str,
    here: Pass,
    there: Pass,
}

fn pass<T: Clone + 'static, R>(inputs: &[T], call: impl Fn(&T) -> R + 'static) -> Pass {
    let inputs = inputs.to_vec();
    Box::new(move || {
        for input in &inputs {
            black_box(call(black_box(input)));
        }
    })
}

/// The nanoseconds of a call.
fn time(pass: &Pass) -> f64 {
    let start = Instant::now();
    pass();
    start.elapsed().as_nanos() as f64 / INPUTS as f64
}

/// Random day numbers, by SplitMix64.
fn days() -> Vec<i64> {
    let number = |index: u64| {
        let z = index.wrapping_mul(0x9E3779B97F4A7C15);
        let z = (z ^ (z >> 30)).wrapping_mul(0xBF58476D1CE4E5B9);
        ((z ^ (z >> 27)) % 292194) as i64 - 135140
    };
    (0..INPUTS as u64).map(number).collect()
}

/// Each item, with the one as far from the end.
fn pairs<T: Copy>(items: &[T]) -> Vec<(T, T)> {
    items
        .iter()
        .copied()
        .zip(items.iter().rev().copied())
        .collect()
}

/// Rows: a name, the inputs and the call here, and those there.
macro_rules! rows {
    ($($name:literal: $ours:expr, $here:expr; $theirs:expr, $there:expr;)*) => {
        vec![$(Row { name: $name, here: pass($ours, $here), there: pass($theirs, $there) }),*]
    };
}

/// The date so many days later, one by one.
fn counted<D>(first: D, days: usize, next: impl Fn(&D) -> Option<D>) -> D {
    (0..days).fold(first, |date, _| next(&date).expect("there is a next date"))
}

/// The calls.
fn rows() -> Vec<Row> {
    let days = days();
    let epoch = NaiveDate::from_ymd_opt(1970, 1, 1).expect("it is a date");
    let ce = epoch.num_days_from_ce();
    let from_days = move |day: &i64| NaiveDate::from_num_days_from_ce_opt(*day as i32 + ce);
    let ours: Vec<Date> = days.iter().map(|day| Date::from_day_number(*day)).collect();
    let theirs: Vec<NaiveDate> = days.iter().filter_map(from_days).collect();
    let parts: Vec<_> = ours
        .iter()
        .map(|d| (d.year(), d.month(), d.day_of_month()))
        .collect();
    let texts: Vec<String> = ours.iter().map(Date::to_string).collect();
    assert!(theirs
        .iter()
        .map(NaiveDate::to_string)
        .eq(texts.iter().cloned()));
    let (our_pairs, their_pairs) = (pairs(&ours), pairs(&theirs));

    rows! {
        "Date::new": &parts, |p| Date::new(p.0, p.1, p.2);
            &parts, |p| NaiveDate::from_ymd_opt(p.0 as i32, p.1.into(), p.2.into());
        "from_day_number": &days, |d| Date::from_day_number(*d); &days, from_days;
        "day_number": &ours, Date::day_number; &theirs, NaiveDate::num_days_from_ce;
        "next": &ours, Date::next; &theirs, NaiveDate::succ_opt;
        "next, one after the other":
            &[INPUTS], |n| counted(Date::from_day_number(0), *n, Date::next);
            &[INPUTS], move |n| counted(epoch, *n, NaiveDate::succ_opt);
        "day_of_year": &ours, Date::day_of_year; &theirs, NaiveDate::ordinal;
        "weekday": &ours, Date::weekday; &theirs, NaiveDate::weekday;
        "iso_week": &ours, Date::iso_week; &theirs, |d| (d.iso_week().year(), d.iso_week().week());
        "from_iso_week": &parts, |p| Date::from_iso_week(p.0, 1 + p.2, Weekday::Monday);
            &parts, |p| {
                NaiveDate::from_isoywd_opt(p.0 as i32, u32::from(p.2) + 1, chrono::Weekday::Mon)
            };
        "plus_days": &ours, |d| d.plus_days(1000);
            &theirs, |d| d.checked_add_signed(Duration::days(1000));
        "plus_months": &ours, |d| d.plus_months(7); &theirs, |d| d.checked_add_months(Months::new(7));
        "days_between": &our_pairs, |(a, b)| days_between(a, b);
            &their_pairs, |(a, b)| b.signed_duration_since(*a).num_days();
        "to_string of a date": &ours, Date::to_string; &theirs, NaiveDate::to_string;
        "parse of a date": &texts, |text| text.parse::<Date>(); &texts, |text| text.parse::<NaiveDate>();
    }
}

/// Prints the least nanoseconds of each call, here and there, and the ratio. In each of the 300 rounds each pass runs once, so
/// that other load on the machine hardly changes the least.
pub fn print_all() {
    let rows = rows();
    let mut least = vec![(f64::INFINITY, f64::INFINITY); rows.len()];
    for _ in 0..300 {
        for (row, (here, there)) in rows.iter().zip(&mut least) {
            *here = here.min(time(&row.here));
            *there = there.min(time(&row.there));
        }
    }
    for (row, (here, there)) in rows.iter().zip(least) {
        print(row.name, here, there);
    }
}

/// Runs the passes of one call a number of times, `here` or not, for a tool that counts instructions.
pub fn run(name: &str, here: bool, passes: usize) {
    for row in rows().iter().filter(|row| row.name == name) {
        let pass = if here { &row.here } else { &row.there };
        (0..passes).for_each(|_| pass());
    }
}
