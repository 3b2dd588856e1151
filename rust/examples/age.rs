//! The age of a person on a day, and the last Friday of that month, when the wages are paid.
//!
//! ```console
//! $ cargo run --example age 2000-02-29 2024-02-28
//! 23 years and 11 months old
//! wages on 2024-02-23, in 0 weeks
//! $ cargo run --example age 2000-02-29 2024-03-01
//! 24 years and 0 months old
//! wages on 2024-03-29, in 4 weeks
//! $ cargo run --example age 2000-02-30 2024-03-01
//! Error: DateError
//! ```

use cellarcove::calendar::{days_between, last_weekday_of_month, months_between, Date, Weekday};
use cellarcove::div_rem;
use std::env;
use std::error::Error;

fn main() -> Result<(), Box<dyn Error>> {
    let dates: Vec<Date> = env::args()
        .skip(1)
        .map(|date| date.parse())
        .collect::<Result<_, _>>()?;
    let [birth, today] = dates[..] else {
        return Err("give the dates of birth and of today".into());
    };
    let months = months_between(&birth, &today).ok_or("the age does not fit")?;
    let (years, months) = div_rem(months, 12);
    println!("{years} years and {months} months old");
    let friday = last_weekday_of_month(today.year(), today.month(), Weekday::Friday)
        .ok_or("there is none")?;
    let days = days_between(&today, &friday).ok_or("the days do not fit")?;
    println!("wages on {friday}, in {} weeks", days / 7);
    Ok(())
}
