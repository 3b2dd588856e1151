//! A type of one's own: amounts of money in cents. It implements eight methods of `Integer`, and has the
//! others of the trait.
//!
//! ```console
//! $ cargo run --example own_type 100.00 3
//! 33.33 each, and 0.01 left
//! boxes of 33.33: 4 for the whole amount
//! $ cargo run --example own_type -- -0.05 2
//! -0.03 each, and 0.01 left
//! boxes of -0.03: 2 for the whole amount
//! ```

use cellarcove::num_traits::{Num, One, Zero};
use cellarcove::Integer;
use std::env;
use std::error::Error;
use std::fmt;
use std::ops::{Add, Div, Mul, Rem, Sub};

#[derive(Debug, Clone, Copy, PartialEq, Eq, PartialOrd, Ord)]
struct Cents(i64);

impl fmt::Display for Cents {
    fn fmt(&self, f: &mut fmt::Formatter<'_>) -> fmt::Result {
        let (sign, cents) = (if self.0 < 0 { "-" } else { "" }, self.0.unsigned_abs());
        write!(f, "{sign}{}.{:02}", cents / 100, cents % 100)
    }
}

macro_rules! operators {
    ($($Operator:ident $method:ident($x:ident, $y:ident) $result:expr;)*) => {$(
        impl $Operator for Cents {
            type Output = Cents;

            fn $method(self, other: Cents) -> Cents {
                let ($x, $y) = (self.0, other.0);
                Cents($result)
            }
        }
    )*};
}

// A plain `x + y` wraps in a release build. `/` and `%` panic there too.
operators! {
    Add add(x, y) x.checked_add(y).expect("the sum of the amounts does not fit");
    Sub sub(x, y) x.checked_sub(y).expect("the difference of the amounts does not fit");
    Mul mul(x, y) x.checked_mul(y).expect("the product of the amounts does not fit");
    Div div(x, y) x / y;
    Rem rem(x, y) x % y;
}

impl Zero for Cents {
    fn zero() -> Cents {
        Cents(0)
    }

    fn is_zero(&self) -> bool {
        self.0 == 0
    }
}

impl One for Cents {
    fn one() -> Cents {
        Cents(1)
    }
}

impl Num for Cents {
    type FromStrRadixErr = std::num::ParseIntError;

    fn from_str_radix(digits: &str, radix: u32) -> Result<Cents, Self::FromStrRadixErr> {
        i64::from_str_radix(digits, radix).map(Cents)
    }
}

impl Integer for Cents {
    fn div_rem(&self, other: &Cents) -> (Cents, Cents) {
        let (quotient, remainder) = self.0.div_rem(&other.0);
        (Cents(quotient), Cents(remainder))
    }

    fn div_floor(&self, other: &Cents) -> Cents {
        Cents(Integer::div_floor(&self.0, &other.0))
    }

    fn mod_floor(&self, other: &Cents) -> Cents {
        Cents(self.0.mod_floor(&other.0))
    }

    fn is_multiple_of(&self, other: &Cents) -> bool {
        Integer::is_multiple_of(&self.0, &other.0)
    }

    fn is_even(&self) -> bool {
        self.0.is_even()
    }

    fn is_odd(&self) -> bool {
        self.0.is_odd()
    }

    fn gcd(&self, other: &Cents) -> Cents {
        Cents(self.0.gcd(&other.0))
    }

    fn lcm(&self, other: &Cents) -> Cents {
        Cents(self.0.lcm(&other.0))
    }
}

/// The cents of an amount such as `-12.34`.
fn cents(word: &str) -> Result<Cents, Box<dyn Error>> {
    let (whole, part) = word.split_once('.').ok_or("an amount is given as 12.34")?;
    if part.len() != 2 {
        return Err("an amount has two digits after the point".into());
    }
    Ok(Cents(format!("{whole}{part}").parse()?))
}

fn main() -> Result<(), Box<dyn Error>> {
    let words: Vec<String> = env::args().skip(1).collect();
    let [amount, people] = &words[..] else {
        return Err("give an amount and a number of people".into());
    };
    let (amount, people) = (cents(amount)?, Cents(people.parse()?));
    if people < Cents(1) {
        return Err("there is at least one person".into());
    }
    let (each, left) = amount.div_mod_floor(&people);
    println!("{each} each, and {left} left");
    if !each.is_zero() {
        println!(
            "boxes of {each}: {} for the whole amount",
            Integer::div_ceil(&amount, &each).0
        );
    }
    Ok(())
}

/// Where a result does not fit, each operator panics, and so do the calls that are made of them.
#[cfg(test)]
mod tests {
    use super::Cents;
    use cellarcove::applied::counting::factorial;
    use cellarcove::Integer;

    #[test]
    fn largest_factorial() {
        assert_eq!(factorial(Cents(20)), Cents(2432902008176640000));
    }

    #[test]
    #[should_panic = "the product of the amounts does not fit"]
    fn factorial_that_does_not_fit() {
        let _ = factorial(Cents(21));
    }

    #[test]
    #[should_panic = "the sum of the amounts does not fit"]
    fn sum_that_does_not_fit() {
        let _ = Cents(i64::MAX) + Cents(1);
    }

    #[test]
    #[should_panic = "the difference of the amounts does not fit"]
    fn difference_that_does_not_fit() {
        let _ = Cents(i64::MIN) - Cents(1);
    }

    #[test]
    #[should_panic = "attempt to divide with overflow"]
    fn quotient_that_does_not_fit() {
        let _ = Cents(i64::MIN) / Cents(-1);
    }

    #[test]
    #[should_panic = "the least common multiple does not fit"]
    fn multiple_that_does_not_fit() {
        let _ = Cents(i64::MAX).lcm(&Cents(2));
    }
}
