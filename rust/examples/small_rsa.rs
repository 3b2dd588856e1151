//! RSA with small numbers, which keeps nothing secret: the time of a call tells its numbers.
//!
//! ```console
//! $ cargo run --example small_rsa 61 53 17 65
//! public key 17 modulo 3233, private key 413
//! 65 is encrypted to 2790, and decrypted to 65
//! $ cargo run --example small_rsa 61 53 6 65
//! Error: "the exponent has a divisor in common with the period"
//! ```

use cellarcove::checked;
use cellarcove::modular::{inverse_modulo, power_modulo};
use std::env;
use std::error::Error;

fn main() -> Result<(), Box<dyn Error>> {
    let words: Vec<u64> = env::args()
        .skip(1)
        .map(|word| word.parse())
        .collect::<Result<_, _>>()?;
    let [p, q, exponent, message] = words[..] else {
        return Err("give two primes, an exponent and a message".into());
    };
    if p < 2 || q < 2 {
        return Err("the primes are at least 2".into());
    }
    let modulus = checked::product(p, q).ok_or("the product of the primes does not fit")?;
    let period = checked::lcm(p - 1, q - 1).ok_or("the period does not fit")?;
    let key = inverse_modulo(exponent, period)
        .ok_or("the exponent has a divisor in common with the period")?;
    let encrypted = power_modulo(message, exponent.into(), modulus);
    let decrypted = power_modulo(encrypted, key.into(), modulus);
    println!("public key {exponent} modulo {modulus}, private key {key}");
    println!("{message} is encrypted to {encrypted}, and decrypted to {decrypted}");
    Ok(())
}
