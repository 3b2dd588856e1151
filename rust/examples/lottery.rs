//! The number of a lottery ticket among all choices of six of the numbers from 1 to 49, and the ticket of a
//! number.
//!
//! ```console
//! $ cargo run --example lottery 1 2 3 4 5 7
//! ticket 1 of 0 to 13983815
//! $ cargo run --example lottery 13983815
//! 44 45 46 47 48 49
//! $ cargo run --example lottery 13983816
//! Error: "there are 13983816 tickets"
//! $ cargo run --example lottery 1 2 3 4 5 50
//! Error: "a ticket has six numbers from 1 to 49, in order"
//! ```

use cellarcove::applied::ranking::{choice_of_rank, is_choice, rank};
use cellarcove::binomial;
use std::env;
use std::error::Error;

fn main() -> Result<(), Box<dyn Error>> {
    let words: Vec<u64> = env::args()
        .skip(1)
        .map(|word| word.parse())
        .collect::<Result<_, _>>()?;
    let tickets = binomial(49u64, 6);
    if let [number] = words[..] {
        if number >= tickets {
            return Err(format!("there are {tickets} tickets").into());
        }
        let mut choice = [0; 6];
        choice_of_rank(number, 49, &mut choice);
        let numbers: Vec<String> = choice.iter().map(|below| (below + 1).to_string()).collect();
        println!("{}", numbers.join(" "));
        return Ok(());
    }
    // The choices of the library are of the numbers from 0 to 48.
    let choice: Vec<u64> = words.iter().map(|number| number.wrapping_sub(1)).collect();
    if choice.len() != 6 || !is_choice(&choice, 49) {
        return Err("a ticket has six numbers from 1 to 49, in order".into());
    }
    println!("ticket {} of 0 to {}", rank(&choice, 49), tickets - 1);
    Ok(())
}
