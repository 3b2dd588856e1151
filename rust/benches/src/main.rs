//! Prints the nanoseconds of a call of the crate, of the same call of `num-integer` or `chrono` or in plain `i128`, and the ratio of
//! the two. Run it by hand, on a quiet machine: `cargo run --release`.
//!
//! With the name of a call of dates, `here` or `there`, and a number of passes, it only runs those passes. So
//! `valgrind --tool=callgrind target/release/benches day_number here 2` counts 4096 times the instructions of a call more than with 1.

mod dates;

use std::hint::black_box;
use std::time::Instant;

/// Pairs of random numbers of every length in bits, by SplitMix64.
fn pairs(bits: u32) -> Vec<(i64, i64)> {
    let number = |index: u64| {
        let z = index.wrapping_mul(0x9E3779B97F4A7C15);
        let z = (z ^ (z >> 30)).wrapping_mul(0xBF58476D1CE4E5B9);
        let z = (z ^ (z >> 27)).wrapping_mul(0x94D049BB133111EB);
        let length = 1 + index as u32 % bits;
        ((z ^ (z >> 31)) >> (64 - length)) as i64 + 1
    };
    (0..4096)
        .map(|index| (number(2 * index), number(7 * index + 1)))
        .collect()
}

/// The least nanoseconds of a call over all pairs, of nine passes.
fn time<R>(pairs: &[(i64, i64)], call: impl Fn(i64, i64) -> R) -> f64 {
    let pass = || {
        let start = Instant::now();
        for (a, b) in pairs {
            black_box(call(black_box(*a), black_box(*b)));
        }
        start.elapsed().as_nanos() as f64 / pairs.len() as f64
    };
    (0..9).map(|_| pass()).fold(f64::INFINITY, f64::min)
}

/// The least nanoseconds of a call for each number of a list, of nine passes.
fn time_of_list<R>(numbers: &[i64], call: impl Fn(&[i64]) -> R) -> f64 {
    let pass = || {
        let start = Instant::now();
        black_box(call(black_box(numbers)));
        start.elapsed().as_nanos() as f64 / numbers.len() as f64
    };
    (0..9).map(|_| pass()).fold(f64::INFINITY, f64::min)
}

/// The gcd and the lcm of lists, beside those of `num-integer` one number after the other.
fn lists() {
    use cellarcove::applied::lists::{gcd_of, lcm_of};
    let any: Vec<i64> = pairs(62).into_iter().map(|(a, _)| a).collect();
    let multiples: Vec<i64> = any.iter().map(|number| (number >> 4) * 12).collect();
    let few: Vec<i64> = any.iter().map(|number| 1 + number % 40).collect();
    let gcd = |numbers: &[i64]| numbers.iter().fold(0, |g, n| num_integer::gcd(g, *n));
    let lcm = |numbers: &[i64]| numbers.iter().fold(1, |l, n| num_integer::lcm(l, *n));
    for (name, numbers) in [("any numbers", &any), ("multiples of 12", &multiples)] {
        let name = format!("gcd_of {name}");
        print(
            &name,
            time_of_list(numbers, gcd_of),
            time_of_list(numbers, gcd),
        );
    }
    print(
        "lcm_of up to 40",
        time_of_list(&few, lcm_of),
        time_of_list(&few, lcm),
    );
}

/// Products divided, beside the quotient and the remainder in `i128`. Those of at most 31 bits fit in 64 bits.
fn products() {
    use cellarcove::checked::product_div_mod_floor;
    let in_128_bits = |a: i64, b: i64, d: i64| {
        let (product, d) = (i128::from(a) * i128::from(b), i128::from(d));
        let quotient = i64::try_from(product.checked_div_euclid(d)?).ok()?;
        Some((quotient, product.rem_euclid(d) as i64))
    };
    for bits in [31, 62] {
        let inputs = pairs(bits);
        print(
            &format!("product_div_mod_floor, {bits}"),
            time(&inputs, |a, b| {
                product_div_mod_floor(-a, b, black_box(10_007))
            }),
            time(&inputs, |a, b| in_128_bits(-a, b, black_box(10_007))),
        );
    }
}

/// Sums modulo a number of 64 bits, beside the remainder in `u128`: of residues, and of any numbers.
fn sums() {
    use cellarcove::modular::sum_modulo;
    let remainder = |a: i64, b: i64, m: u64| {
        ((u128::from(a as u64) + u128::from(b as u64)) % u128::from(m)) as u64
    };
    let inputs = pairs(62);
    for modulus in [(1 << 63) - 25, 10_007] {
        print(
            &format!("sum_modulo {modulus}"),
            time(&inputs, |a, b| {
                sum_modulo(a as u64, b as u64, black_box(modulus))
            }),
            time(&inputs, |a, b| remainder(a, b, black_box(modulus))),
        );
    }
}

/// The gcd of neighbours of Fibonacci's numbers, beside that of `num-integer`: of one pair over and over, whose branches the
/// processor learns, and of 48 pairs in turn.
fn neighbours() {
    let mut fibonacci = vec![1, 2];
    while fibonacci.len() < 89 {
        fibonacci.push(fibonacci[fibonacci.len() - 1] + fibonacci[fibonacci.len() - 2]);
    }
    for (name, count) in [("one pair", 1), ("48 pairs", 48)] {
        let inputs: Vec<(i64, i64)> = (0..4096)
            .map(|index| 40 + 47 - index % count)
            .map(|index| (fibonacci[index], fibonacci[index + 1]))
            .collect();
        print(
            &format!("gcd of neighbours, {name}"),
            time(&inputs, cellarcove::gcd),
            time(&inputs, num_integer::gcd),
        );
    }
}

/// Products and powers modulo a number at an integer of a range, beside those at `i64`.
fn ranges() {
    use cellarcove::bounded_integers::{Bounded, Range};
    use cellarcove::modular::{power_modulo, product_modulo};
    struct WideRange;
    impl Range for WideRange {
        const LOW: i64 = -i64::MAX;
        const HIGH: i64 = i64::MAX;
    }
    let of = Bounded::<WideRange>::new;
    let inputs = pairs(62);
    for modulus in [10_007, (1 << 61) - 1] {
        print(
            &format!("product_modulo {modulus}"),
            time(&inputs, |a, b| {
                product_modulo(of(-a), of(b), of(black_box(modulus)))
            }),
            time(&inputs, |a, b| product_modulo(-a, b, black_box(modulus))),
        );
        print(
            &format!("power_modulo {modulus}"),
            time(&inputs, |a, b| {
                power_modulo(of(a), b as u128, of(black_box(modulus)))
            }),
            time(&inputs, |a, b| {
                power_modulo(a, b as u128, black_box(modulus))
            }),
        );
    }
}

fn print(name: &str, ours: f64, theirs: f64) {
    println!(
        "{name:<28} {ours:>8.2} {theirs:>8.2} {:>6.2}",
        ours / theirs
    );
}

/// Makes each call of the list by both crates. `$of` is the crate in the call.
macro_rules! calls {
    ($($name:literal $bits:literal |$of:ident, $a:ident, $b:ident| $call:expr;)*) => {$(
        let inputs = pairs($bits);
        let ours = {
            use cellarcove as $of;
            time(&inputs, |$a, $b| $call)
        };
        let theirs = {
            use num_integer as $of;
            time(&inputs, |$a, $b| $call)
        };
        print($name, ours, theirs);
    )*};
}

fn main() {
    let words: Vec<String> = std::env::args().skip(1).collect();
    if let [name, side, passes] = &words[..] {
        let passes = passes.parse().expect("the passes are a number");
        return dates::run(name, side == "here", passes);
    }
    println!("{:<28} {:>8} {:>8} {:>6}", "call", "here", "there", "ratio");
    calls! {
        "div_rem" 62 |it, a, b| it::div_rem(a, b);
        "div_floor" 62 |it, a, b| it::div_floor(-a, b);
        "mod_floor" 62 |it, a, b| it::mod_floor(-a, b);
        "div_ceil" 62 |it, a, b| it::div_ceil(a, b);
        "gcd" 62 |it, a, b| it::gcd(a, b);
        "gcd of u64" 62 |it, a, b| it::gcd(a as u64, b as u64);
        "gcd of i128" 62 |it, a, b| it::gcd(i128::from(a) << 50, i128::from(b));
        "lcm" 31 |it, a, b| it::lcm(a, b);
        "gcd_lcm" 31 |it, a, b| it::gcd_lcm(a, b);
        "extended_gcd" 62 |it, a, b| it::Integer::extended_gcd(&a, &b);
        "average_floor" 62 |it, a, b| it::average_floor(a, -b);
        "sqrt" 62 |it, a, _b| it::sqrt(a);
        "cbrt" 62 |it, a, _b| it::cbrt(a);
        "nth_root(5)" 62 |it, a, _b| it::nth_root(a, 5);
        "binomial of at most 64" 6 |it, a, b| it::binomial(a.max(b), a.min(b));
        "multinomial of three" 3 |it, a, b| it::multinomial(&[a, b, 2]);
    }
    lists();
    neighbours();
    products();
    sums();
    ranges();
    dates::print_all();
}
