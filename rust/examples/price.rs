//! A price in cents with a tax, rounded to the nearest cent, and the mean of the prices.
//!
//! ```console
//! $ cargo run --example price 19/100 1999 501 100
//! 1999 + 380 = 2379
//! 501 + 95 = 596
//! 100 + 19 = 119
//! mean of the prices: 2600/3
//! $ cargo run --example price 19/0 1999
//! Error: ZeroDenominator
//! ```

use cellarcove::ratio64::Ratio;
use std::env;
use std::error::Error;

fn main() -> Result<(), Box<dyn Error>> {
    let words: Vec<String> = env::args().skip(1).collect();
    let (rate, prices) = words
        .split_first()
        .ok_or("give a rate and prices in cents")?;
    let rate: Ratio = rate.parse()?;
    let prices: Vec<i64> = prices
        .iter()
        .map(|price| price.parse())
        .collect::<Result<_, _>>()?;
    for price in &prices {
        let tax = rate.round_times(*price).ok_or("the tax does not fit")?;
        let total = price.checked_add(tax).ok_or("the total does not fit")?;
        println!("{price} + {tax} = {total}");
    }
    let count = i64::try_from(prices.len())?;
    let sum = prices.iter().try_fold(Ratio::zero(), |sum, price| {
        sum.checked_add(&Ratio::from(*price))
    })?;
    println!(
        "mean of the prices: {}",
        sum.checked_div(&Ratio::from(count))?
    );
    Ok(())
}
