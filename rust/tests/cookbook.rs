//! The tasks of docs/COOKBOOK.md, and of the finder in docs/LANGUAGES.md, with their results.

use cellarcove::applied::schedules::next_meeting;
use cellarcove::applied::shares::SharesError;
use cellarcove::applied::{layout, paging, ranking, shares};
use cellarcove::calendar::{days_in_month, easter, last_weekday_of_month, months_between, Date, IsoWeek, Weekday};
use cellarcove::modular::{inverse_modulo, residue, CommonSolution};
use cellarcove::ratio64::{Decimal, ParseRatioError, Ratio};
use cellarcove::{checked, Integer};
use std::str::FromStr;

fn pages(items: u64) -> u64 {
    paging::pages(items, 20)
}

fn items_of(page: usize, items: &[u64]) -> &[u64] {
    let (first, end) = paging::range_of_page(page, 20, items.len());
    &items[first..end]
}

fn shares(cents: u64, people: u64) -> (u64, u64) {
    cents.div_mod_floor(&people)
}

fn budgets(cents: u64, people: [u64; 3]) -> Result<[u64; 3], SharesError> {
    let mut budgets = [0; 3];
    shares::shares(cents, &people, &mut budgets)?;
    Ok(budgets)
}

fn aligned(offset: u64) -> Option<u64> {
    layout::align_up(offset, 8)
}

fn both_buses(now: u64) -> CommonSolution<u64> {
    next_meeting(now, (1, 4).into(), (3, 6).into())
}

fn pay_day(year: i64, month: u8) -> Option<Date> {
    last_weekday_of_month(year, month, Weekday::Friday)
}

fn due(invoice: &Date) -> Option<Date> {
    invoice.plus_months(1)
}

fn easter_monday(year: i64) -> Option<Date> {
    easter(year).plus_days(1)
}

fn age_in_months(born: &Date, today: &Date) -> Option<i64> {
    months_between(born, today)
}

fn week_of(date: &Date) -> Option<IsoWeek> {
    date.iso_week()
}

fn tax(cents: i64) -> Option<i64> {
    let (tax, _) = checked::product_div_mod_floor(cents, 19, 100)?;
    Some(tax)
}

fn price_of_each(total: Ratio, pieces: i64) -> Option<Decimal> {
    total.checked_div(&Ratio::from(pieces)).ok()?.to_decimal(2)
}

fn even_cents(price: &Ratio) -> Option<i64> {
    price.round_even_times(100)
}

fn simple(x: &Ratio) -> Ratio {
    x.limit_denominator(10)
}

fn inverse(a: u64) -> Option<u64> {
    inverse_modulo(a, 1_000_000_007)
}

fn read(text: &str) -> Result<Ratio, ParseRatioError> {
    Ratio::from_str(text)
}

fn draw_number(draw: &[u64; 6]) -> Option<u64> {
    if ranking::is_choice(draw, 49) {
        Some(ranking::rank(draw, 49))
    } else {
        None
    }
}

fn next_draw(draw: &mut [u64]) -> bool {
    ranking::is_choice(draw, 49) && ranking::next_choice(draw, 49)
}

fn resolution(width: u32, height: u32) -> Ratio {
    Ratio::new(i64::from(width), i64::from(height)).unwrap()
}

fn encrypted(factor: u8, shift: u8, byte: u8) -> u8 {
    residue(u32::from(factor) * u32::from(byte) + u32::from(shift), 256) as u8
}

fn part_by_weight(cents: u64, weight: u64, total: u64) -> u64 {
    (u128::from(cents) * u128::from(weight) / u128::from(total)) as u64
}

fn total_of(amounts: &[u64]) -> Option<u64> {
    let mut total = 0;
    for amount in amounts {
        total = checked::sum(total, *amount)?;
    }
    Some(total)
}

fn date(text: &str) -> Date {
    text.parse().unwrap()
}

mod page {
    use cellarcove::applied::schedules::{self, Schedule};
    use cellarcove::applied::shares;
    use cellarcove::calendar::Date;
    use cellarcove::checked;
    use cellarcove::modular::CommonSolution;
    use cellarcove::ratio64::Ratio;

    #[test]
    fn tasks_of_the_page() {
        let mut budgets = [0; 4];
        shares::shares(1002, &[1, 1, 1, 1], &mut budgets).unwrap();
        assert_eq!(budgets, [251, 250, 251, 250]);
        shares::shares_by_largest_remainder(1002, &[1, 1, 1, 1], &mut budgets).unwrap();
        assert_eq!(budgets, [251, 251, 250, 250]);
        let red = Schedule { first: 1, period: 4 };
        let blue = Schedule { first: 3, period: 6 };
        assert_eq!(schedules::next_meeting(10, red, blue), CommonSolution::At(21));
        assert_eq!(checked::product_div_mod_floor(1999, 19, 100), Some((379, 81)));
        let largest_tax = checked::product_div_mod_floor(i64::MAX, 19, 100);
        assert_eq!(largest_tax, Some((1752440687002407403, 33)));
        let price = Ratio::new(1, 8).unwrap().to_decimal(2);
        assert_eq!(price.unwrap().to_string(), "0.12");
        let coin = Ratio::new(1, 20).unwrap().to_decimal(2);
        assert_eq!(coin.unwrap().to_string(), "0.05");
        let invoice: Date = "2026-01-31".parse().unwrap();
        assert_eq!(invoice.plus_months(1).unwrap().to_string(), "2026-02-28");
    }
}

#[test]
fn tasks_on_numbers() {
    let items: Vec<u64> = (0..41).collect();
    assert_eq!(pages(41), 3);
    assert_eq!(items_of(2, &items), [40]);
    assert!(items_of(3, &items).is_empty());
    assert_eq!(shares(1000, 3), (333, 1));
    assert_eq!(budgets(1001, [5, 3, 2]), Ok([501, 300, 200]));
    assert_eq!(budgets(1, [1, 1, 98]), Ok([1, 0, 0]));
    assert_eq!(budgets(1001, [0; 3]), Err(SharesError::ZeroWeights));
    assert_eq!((aligned(13), aligned(u64::MAX)), (Some(16), None));
    assert_eq!(both_buses(10), CommonSolution::At(21));
    assert_eq!(tax(i64::MAX), Some(1752440687002407403));
    assert_eq!((inverse(3), inverse(0)), (Some(333333336), None));
    assert_eq!(encrypted(5, 8, 200), 240);
    assert_eq!(part_by_weight(u64::MAX, 1, 3), 6148914691236517205);
    assert_eq!(total_of(&[2, 3, 5]), Some(10));
    assert_eq!(total_of(&[u64::MAX, 1]), None);
}

#[test]
fn tasks_on_fractions() {
    let pi = Ratio::new(314159, 100000).unwrap();
    let each =
        |total: i64, pieces| price_of_each(Ratio::from(total), pieces).map(|d| d.to_string());
    assert_eq!(each(1234, 5).as_deref(), Some("246.80"));
    assert_eq!(each(1, -20).as_deref(), Some("-0.05"));
    assert_eq!(each(1, 8).as_deref(), Some("0.12"));
    assert_eq!(each(1, 0), None);
    assert_eq!(even_cents(&Ratio::new(1, 8).unwrap()), Some(12));
    assert_eq!(simple(&pi), Ratio::new(22, 7).unwrap());
    assert_eq!(resolution(1920, 1080).to_string(), "16/9");
    assert_eq!(read("6/-4"), Ok(Ratio::new(-3, 2).unwrap()));
    assert_eq!(read("1/0"), Err(ParseRatioError::ZeroDenominator));
    assert_eq!(read("1.5"), Err(ParseRatioError::NotAFraction));
}

#[test]
fn tasks_on_dates() {
    assert_eq!(pay_day(2026, 11), Some(date("2026-11-27")));
    assert_eq!(pay_day(2026, 13), None);
    assert_eq!(due(&date("2026-01-31")), Some(date("2026-02-28")));
    assert_eq!(date("2026-11-28").plus_days(30), Some(date("2026-12-28")));
    assert_eq!(Date::new(2028, 2, days_in_month(2028, 2)), Some(date("2028-02-29")));
    assert_eq!(Ratio::new(10857, 10000).unwrap().round_even_times(24680), Some(26795));
    assert_eq!(due(&date("2000-01-31")), Some(date("2000-02-29")));
    assert_eq!(easter_monday(2027), Some(date("2027-03-29")));
    assert_eq!(
        age_in_months(&date("2000-01-31"), &date("2000-02-29")),
        Some(1)
    );
    assert_eq!(week_of(&date("2027-01-01")), IsoWeek::new(2026, 53));
}

#[test]
fn tasks_on_draws() {
    let mut draw = [0, 1, 2, 3, 4, 6];
    assert_eq!(draw_number(&draw), Some(1));
    assert_eq!(draw_number(&[1, 1, 2, 3, 4, 5]), None);
    assert!(next_draw(&mut draw));
    assert_eq!(draw, [0, 1, 2, 3, 5, 6]);
}
