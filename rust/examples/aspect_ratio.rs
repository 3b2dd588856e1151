//! The ratio of the sides of a screen.
//!
//! ```console
//! $ cargo run --example aspect_ratio 1920 1080
//! 16:9
//! $ cargo run --example aspect_ratio 0 0
//! Error: "a screen has no side of 0"
//! ```

use cellarcove::gcd;
use std::env;
use std::error::Error;

fn main() -> Result<(), Box<dyn Error>> {
    let sides: Vec<u32> = env::args()
        .skip(1)
        .map(|side| side.parse())
        .collect::<Result<_, _>>()?;
    let [width, height] = sides[..] else {
        return Err("give a width and a height".into());
    };
    if width == 0 || height == 0 {
        return Err("a screen has no side of 0".into());
    }
    // Of unsigned numbers each greatest common divisor fits.
    let side = gcd(width, height);
    println!("{}:{}", width / side, height / side);
    Ok(())
}
