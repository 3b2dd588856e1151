//! Fractions of small parts, each pair of them, and the operations, against cross multiplication and trial.

use cellarcove::ratio64::{Ratio, RatioError};
use std::hash::{DefaultHasher, Hash, Hasher};

type Parts = (i64, i64);

/// The numerators and denominators from -12 to 12, with each sign.
fn all_parts() -> impl Iterator<Item = Parts> {
    (-12..=12).flat_map(|num| (-12..=12).map(move |den| (num, den)))
}

/// The fractions with positive denominators.
fn fractions() -> impl Iterator<Item = (Parts, Ratio)> {
    let positive = all_parts().filter(|(_, den)| *den > 0);
    positive.map(|(num, den)| ((num, den), Ratio::new(num, den).expect("small parts fit")))
}

fn parts(x: &Ratio) -> Parts {
    (x.num(), x.den())
}

fn hash_of(x: &Ratio) -> u64 {
    let mut state = DefaultHasher::new();
    x.hash(&mut state);
    state.finish()
}

#[test]
fn reduced_parts() {
    for (num, den) in all_parts() {
        let Ok(x) = Ratio::new(num, den) else {
            assert_eq!(
                (den, Ratio::new(num, den)),
                (0, Err(RatioError::ZeroDenominator))
            );
            continue;
        };
        let (p, q) = parts(&x);
        assert!(q > 0 && p * den == num * q, "{num}/{den}");
        assert!(!(2..=12).any(|k| p % k == 0 && q % k == 0), "{num}/{den}");
    }
}

/// The nearest integer by trial, and of two the even one. The denominator is positive.
fn nearest_even(num: i64, den: i64) -> i64 {
    let around = num.div_euclid(den) - 1..=num.div_euclid(den) + 2;
    let distance = |n: &i64| 2 * (num - n * den).abs();
    around
        .min_by_key(|n| (distance(n), n.rem_euclid(2)))
        .expect("there are four numbers")
}

#[test]
fn rounded() {
    for ((num, den), x) in fractions() {
        assert_eq!(x.floor(), num.div_euclid(den), "{x}");
        assert_eq!(x.ceil(), -(-num).div_euclid(den), "{x}");
        assert_eq!(x.trunc(), num / den, "{x}");
        let nearest = (2 * num.abs() + den) / (2 * den) * num.signum();
        assert_eq!(x.round(), nearest, "{x}");
        assert_eq!(x.round_even(), nearest_even(num, den), "{x}");
        assert_eq!(Ratio::from(x.trunc()).checked_add(&x.fract()), Ok(x), "{x}");
        for n in -12..=12 {
            let product = num * n;
            assert_eq!(x.floor_times(n), Some(product.div_euclid(den)), "{x} {n}");
            assert_eq!(
                x.ceil_times(n),
                Some(-(-product).div_euclid(den)),
                "{x} {n}"
            );
            let nearest = (2 * product.abs() + den) / (2 * den) * product.signum();
            assert_eq!(x.round_times(n), Some(nearest), "{x} {n}");
            let even = nearest_even(product, den);
            assert_eq!(x.round_even_times(n), Some(even), "{x} {n}");
        }
        for parts in 1..=24 {
            let even = nearest_even(num * parts, den);
            assert_eq!(
                x.round_even_to(parts),
                Ratio::new(even, parts),
                "{x} {parts}"
            );
        }
    }
}

#[test]
fn signs() {
    for ((num, _), x) in fractions() {
        let found = (x.is_positive(), x.is_negative(), x.is_zero());
        assert_eq!(found, (num > 0, num < 0, num == 0), "{x}");
        assert_eq!(x.is_integer(), x.den() == 1, "{x}");
        assert_eq!(x.signum(), Ratio::from(num.signum()), "{x}");
        assert_eq!(
            x.checked_neg().map(|y| parts(&y)),
            Ok((-x.num(), x.den())),
            "{x}"
        );
        assert_eq!(
            x.checked_abs().map(|y| parts(&y)),
            Ok((x.num().abs(), x.den())),
            "{x}"
        );
        let turned = Ratio::new(x.den(), x.num());
        assert_eq!(x.checked_recip(), turned, "{x}");
    }
}

#[test]
fn powers() {
    for (_, x) in fractions() {
        for exponent in 0..6 {
            let (num, den) = (x.num().pow(exponent), x.den().pow(exponent));
            let positive = exponent as i32;
            assert_eq!(
                x.checked_pow(positive),
                Ratio::new(num, den),
                "{x} {exponent}"
            );
            if exponent > 0 {
                assert_eq!(
                    x.checked_pow(-positive),
                    Ratio::new(den, num),
                    "{x} -{exponent}"
                );
            }
        }
    }
}

/// The distance of two fractions times both denominators.
fn gap((a, b): Parts, (c, d): Parts) -> u64 {
    (a * d).abs_diff(c * b)
}

/// The nearest fraction by trial. Of two the one of the smaller denominator, and then the smaller one.
fn nearest_by_trial(x: Parts, max: i64) -> Parts {
    let candidates = (1..=max).flat_map(|den| (-13 * den..=13 * den).map(move |num| (num, den)));
    let is_nearer =
        |y: Parts, z: Parts| gap(x, y) * z.1.unsigned_abs() < gap(x, z) * y.1.unsigned_abs();
    candidates.fold(
        (-13, 1),
        |best, y| if is_nearer(y, best) { y } else { best },
    )
}

#[test]
fn nearest_fractions() {
    for (_, x) in fractions() {
        for max in 1..=12 {
            let nearest = x.limit_denominator(max);
            assert_eq!(
                parts(&nearest),
                nearest_by_trial(parts(&x), max),
                "{x} {max}"
            );
        }
    }
}

/// The nearest fraction of two small parts by trial. Of two the one of the smaller denominator, and then the one nearer to 0.
fn nearest_parts_by_trial(x: Parts, max: i64) -> Parts {
    let key = |&(num, den): &Parts| (den, num.abs());
    let mut candidates: Vec<Parts> = (1..=max)
        .flat_map(|den| (-max..=max).map(move |num| (num, den)))
        .collect();
    candidates.sort_by_key(key);
    let is_nearer =
        |y: Parts, z: Parts| gap(x, y) * z.1.unsigned_abs() < gap(x, z) * y.1.unsigned_abs();
    candidates
        .into_iter()
        .reduce(|best, y| if is_nearer(y, best) { y } else { best })
        .expect("the limit is positive")
}

#[test]
fn nearest_parts() {
    for (_, x) in fractions() {
        for max in 1..=12 {
            let nearest = x.limit_parts(max);
            assert_eq!(
                parts(&nearest),
                nearest_parts_by_trial(parts(&x), max),
                "{x} {max}"
            );
        }
    }
}

/// The answer equals a fraction, or tells that it is none.
fn is_answer(answer: Result<Ratio, RatioError>, num: i64, den: i64) -> bool {
    match answer {
        Ok(x) => den != 0 && num * x.den() == den * x.num(),
        Err(error) => den == 0 && error == RatioError::ZeroDenominator,
    }
}

#[test]
fn each_pair() {
    for ((a, b), x) in fractions() {
        for ((c, d), y) in fractions() {
            let (left, right, below) = (a * d, c * b, b * d);
            let order = left.cmp(&right);
            assert_eq!((x.cmp(&y), x == y), (order, order.is_eq()), "{x} {y}");
            assert!(x != y || hash_of(&x) == hash_of(&y), "{x} {y}");
            assert!(
                is_answer(x.checked_add(&y), left + right, below),
                "{x} + {y}"
            );
            assert!(
                is_answer(x.checked_sub(&y), left - right, below),
                "{x} - {y}"
            );
            assert!(is_answer(x.checked_mul(&y), a * c, below), "{x} * {y}");
            assert!(is_answer(x.checked_div(&y), left, right), "{x} / {y}");
        }
    }
}
