//! Calls that do not compile, each with what the compiler says of it: one error, which says what to do.
//! tools/gate/check_rust_crate.sh compiles them, in a package that has this crate under the name of num-integer, beside num-bigint.

use num_bigint::BigInt;
use num_integer::{modular, *};

fn lcm_of<T: Integer>(a: T) -> Option<T> {
    checked::lcm(a, a) // E0277 `T` does not implement `Fits` of cellarcove
}

fn power<T: Integer>(a: T, m: T) -> T {
    modular::power_modulo(a, 3, m) // E0277 `T` does not implement `Modular` of cellarcove
}

fn middle<T: Integer>(a: T, b: T) -> T {
    average_floor(a, b) // E0277 `T` does not implement `Average` of cellarcove
}

fn root<T: NativeInteger>(a: T) -> T {
    sqrt(a) // E0277 `T` does not implement `Roots` of cellarcove
}

fn count<T: num_traits::PrimInt>(a: T) -> T {
    gcd(a, a) // E0277 `T` does not implement `Integer` of cellarcove
}

fn bits<T: Integer>(a: T) -> u32 {
    ones(a) // E0277 `T` is no built-in integer type
}

fn ones<T: NativeInteger>(a: T) -> u32 {
    a.count_ones()
}

fn roots_of_128_bits(a: u128, b: i128) -> (u128, i128) {
    let root = sqrt(a); // E0277 `u128` does not implement `Roots` of cellarcove
    let cube = nth_root(b, 3); // E0277 `i128` does not implement `Roots` of cellarcove
    let _ = a.cbrt(); // E0599 `u128` does not implement `Roots` of cellarcove
    (root, cube)
}

fn floats(a: f64) -> f64 {
    gcd(a, a) // E0277 `f64` does not implement `Integer` of cellarcove
}

fn of_num_bigint(a: BigInt, b: BigInt) {
    a.gcd(&b); // E0599 `BigInt` does not implement `Integer` of cellarcove
    let _ = (lcm(a, b), 0); // E0277 `BigInt` does not implement `Integer` of cellarcove
}
