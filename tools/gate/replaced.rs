//! A program over num-bigint and num-integer, in whose place the packages of this repository are put.

use num_bigint::BigInt;

fn gcd<T: num_integer::Integer>(a: T, b: T) -> T {
    cellarcove::gcd(a, b)
}

fn main() {
    assert_eq!(gcd(BigInt::from(4), BigInt::from(6)), BigInt::from(2));
    assert_eq!(num_integer::mod_floor(i64::MIN, -1), 0);
}
