//! When three buses next leave together. Each is given by the minute of its first departure and its period.
//!
//! ```console
//! $ cargo run --example timetables 10 1/4 3/6 0/7
//! together at minute 21
//! $ cargo run --example timetables 10 1/4 2/6 0/7
//! never together
//! $ cargo run --example timetables 10 1/4 3/0 0/7
//! Error: "a period is at least 1 minute"
//! ```

use cellarcove::applied::schedules::{next_meeting_of, Schedule};
use cellarcove::modular::CommonSolution;
use std::env;
use std::error::Error;

fn schedule(word: &str) -> Result<Schedule<u64>, Box<dyn Error>> {
    let (first, period) = word
        .split_once('/')
        .ok_or("a bus is given as first/period")?;
    let (first, period) = (first.parse()?, period.parse()?);
    if period == 0 {
        return Err("a period is at least 1 minute".into());
    }
    Ok(Schedule { first, period })
}

fn main() -> Result<(), Box<dyn Error>> {
    let words: Vec<String> = env::args().skip(1).collect();
    let (now, buses) = words
        .split_first()
        .ok_or("give the present minute and the buses")?;
    let buses: Vec<Schedule<u64>> = buses
        .iter()
        .map(|word| schedule(word))
        .collect::<Result<_, _>>()?;
    match next_meeting_of(now.parse()?, &buses) {
        CommonSolution::At(minute) => println!("together at minute {minute}"),
        CommonSolution::Never => println!("never together"),
        CommonSolution::Beyond => println!("together only after minute {}", u64::MAX),
    }
    Ok(())
}
