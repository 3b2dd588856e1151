//! The pages of a list: how many there are, and which items stand on one of them.
//!
//! ```console
//! $ cargo run --example pages 103 10 10
//! page 10 of 0 to 10: items 100 to 102
//! $ cargo run --example pages 103 10 11
//! page 11 of 0 to 10: no items
//! $ cargo run --example pages 103 0 0
//! Error: "a page has at least one item"
//! ```

use cellarcove::applied::paging::{pages, range_of_page};
use std::env;
use std::error::Error;

fn main() -> Result<(), Box<dyn Error>> {
    let words: Vec<u64> = env::args()
        .skip(1)
        .map(|word| word.parse())
        .collect::<Result<_, _>>()?;
    let [items, page_size, page] = words[..] else {
        return Err("give items, page size and page".into());
    };
    // The calls panic at a page size of 0, so ask first.
    let last = match page_size {
        0 => return Err("a page has at least one item".into()),
        _ => pages(items, page_size)
            .checked_sub(1)
            .ok_or("there are no items")?,
    };
    let (first, end) = range_of_page(page, page_size, items);
    match end.checked_sub(1) {
        Some(last_item) if first < end => {
            println!("page {page} of 0 to {last}: items {first} to {last_item}")
        }
        _ => println!("page {page} of 0 to {last}: no items"),
    }
    Ok(())
}
