//! What big integers lack if this crate replaces num-integer below num-bigint, as rust/num-integer/README.md says.

use num_bigint::BigInt;
use num_integer::{modular, *};

fn coefficients(n: BigInt, k: BigInt) {
    for _ in IterBinomial::new(n.clone()) {} // E0277 the trait bound `BigInt: Copy` is not satisfied
    let _ = multinomial(&[k.clone()]); // E0277 the trait bound `BigInt: Copy` is not satisfied
    let _ = binomial(n, k); // E0277 the trait bound `BigInt: Copy` is not satisfied
}

fn averages(a: BigInt, b: BigInt) {
    let _ = a.average_floor(&b); // E0599 `BigInt` is no built-in integer type
    let _ = average_ceil(a, b); // E0277 `BigInt` does not implement `Average` of cellarcove
}

fn what_is_new(a: BigInt, m: BigInt) {
    let _ = checked::lcm(a.clone(), m.clone()); // E0277 `BigInt` does not implement `Fits` of cellarcove
    let _ = modular::product_modulo(a.clone(), a, m); // E0277 `BigInt` does not implement `Modular` of cellarcove
}
