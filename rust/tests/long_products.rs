//! Products and powers modulo numbers of 64 and of 128 bits, against sums alone.

use cellarcove::counted::power_modulo_counted;
use cellarcove::modular::{power_modulo, product_modulo};

/// The largest prime of 128 bits.
const PRIME: u128 = 340282366920938463463374607431768211297;

/// Powers of two with their neighbours, and digits of 64 bits that are all ones or all but none.
const NUMBERS: [u128; 12] = [
    1,
    u128::MAX,
    u128::MAX - 1,
    1 << 127,
    (1 << 127) + 1,
    (1 << 127) - 1,
    1 << 64,
    (1 << 64) + 1,
    (1 << 64) - 1,
    u128::MAX - (1 << 64),
    (1 << 127) + (1 << 64) - 1,
    PRIME,
];

const EXPONENTS: [u128; 8] = [0, 1, 2, 3, 4, 5, 1 << 64, u128::MAX];

/// The sum of two numbers below the modulus, less the modulus if that is reached.
fn sum(x: u128, y: u128, m: u128) -> u128 {
    if x < m - y {
        x + y
    } else {
        x - (m - y)
    }
}

/// Twice what the digits before give, and the number once more if the digit is 1.
fn product(x: u128, y: u128, m: u128) -> u128 {
    let digits = (0..128).rev().map(|place| y >> place & 1);
    digits.fold(0, |total, digit| {
        let twice = sum(total, total, m);
        if digit == 1 {
            sum(twice, x, m)
        } else {
            twice
        }
    })
}

/// The square of what the digits before give, and once more times the number if the digit is 1.
fn power(x: u128, exponent: u128, m: u128) -> u128 {
    let digits = (0..128).rev().map(|place| exponent >> place & 1);
    digits.fold(1 % m, |total, digit| {
        let square = product(total, total, m);
        if digit == 1 {
            product(square, x, m)
        } else {
            square
        }
    })
}

/// The residue of a number of `i128`.
fn residue(x: i128, m: i128) -> u128 {
    x.rem_euclid(m).unsigned_abs()
}

/// Each two of the numbers with each modulus among them.
fn inputs() -> impl Iterator<Item = (u128, u128, u128)> {
    let pairs = || NUMBERS.into_iter().flat_map(|m| NUMBERS.map(|x| (m, x)));
    pairs().flat_map(|(m, x)| NUMBERS.map(|y| (m, x, y)))
}

#[test]
fn products_of_128_bits() {
    for (m, x, y) in inputs() {
        assert_eq!(
            product_modulo(x, y, m),
            product(x % m, y % m, m),
            "{x} {y} {m}"
        );
    }
}

#[test]
fn signed_products_of_128_bits() {
    for (m, x, y) in inputs() {
        let Ok(m) = i128::try_from(m) else { continue };
        let (x, y) = (x as i128, y as i128);
        let expected = product(residue(x, m), residue(y, m), m.unsigned_abs());
        assert_eq!(
            product_modulo(x, y, m).unsigned_abs(),
            expected,
            "{x} {y} {m}"
        );
    }
}

#[test]
fn products_of_64_bits() {
    for (m, x, y) in inputs() {
        let (m, x, y) = (m as u64, x as u64, y as u64);
        if m > 0 {
            let expected = u128::from(x) * u128::from(y) % u128::from(m);
            assert_eq!(u128::from(product_modulo(x, y, m)), expected, "{x} {y} {m}");
        }
    }
}

#[test]
fn powers_of_128_bits() {
    for (m, x) in NUMBERS.into_iter().flat_map(|m| NUMBERS.map(|x| (m, x))) {
        for exponent in EXPONENTS {
            let expected = power(x % m, exponent, m);
            assert_eq!(power_modulo(x, exponent, m), expected, "{x} {exponent} {m}");
        }
    }
}

/// Powers at each type and their iterations, modulo odd and even numbers at its upper end.
macro_rules! powers {
    ($($name:ident $number:ident)*) => {$(
        #[test]
        fn $name() {
            let (low, high) = ($number::MIN, $number::MAX);
            let moduli = [1, high, high - 1, high / 2 + 1, 6, high - 7];
            let numbers = [low, 0, 2, high / 3, high - 1, high];
            for (m, x) in moduli.into_iter().flat_map(|m| numbers.map(|x| (m, x))) {
                let rest = x % m;
                let rest = if rest < 0 as $number { rest + m } else { rest };
                for exponent in EXPONENTS {
                    let expected = power(rest as u128, exponent, m as u128) as $number;
                    let iterations = exponent.checked_ilog2().unwrap_or(0);
                    let found = power_modulo_counted(x, exponent, m);
                    assert_eq!(found, (expected, iterations), "{x} {exponent} {m}");
                    assert_eq!(power_modulo(x, exponent, m), expected, "{x} {exponent} {m}");
                }
            }
        }
    )*};
}

powers! { powers_of_i8 i8 powers_of_i16 i16 powers_of_i32 i32 powers_of_i64 i64 powers_of_isize isize }
powers! { powers_of_u8 u8 powers_of_u16 u16 powers_of_u32 u32 powers_of_u64 u64 powers_of_usize usize }
powers! { powers_of_i128 i128 powers_of_u128 u128 }
