//! Calls that return `None` outside the domain: residues at each modulus of a byte, and the tests of operators and pairs at
//! all pairs of bytes, against computation in 32 bits. Fractions rounded to parts, against integers.

#[macro_use]
mod common;

use cellarcove::modular::{self, checked as residues, CommonSolution};
use cellarcove::ratio64::{Ratio, RatioError};
use cellarcove::{checked, Fits};
use std::panic::catch_unwind;

const NUMBERS: [i8; 9] = [i8::MIN, -7, -1, 0, 1, 2, 5, 100, i8::MAX];

fn pairs() -> impl Iterator<Item = (i8, i8)> {
    NUMBERS
        .iter()
        .flat_map(|a| NUMBERS.iter().map(|b| (*a, *b)))
}

#[test]
fn residues_at_each_modulus() {
    for m in i8::MIN..=i8::MAX {
        let wide = i32::from(m);
        let expected = |number: i32| (wide > 0).then(|| number.rem_euclid(wide) as i8);
        for (a, b) in pairs() {
            let (x, y) = (i32::from(a), i32::from(b));
            assert_eq!(residues::residue(a, m), expected(x), "{a} {m}");
            assert_eq!(
                residues::sum_modulo(a, b, m),
                expected(x + y),
                "{a} {b} {m}"
            );
            assert_eq!(
                residues::difference_modulo(a, b, m),
                expected(x - y),
                "{a} {b} {m}"
            );
            assert_eq!(residues::negation_modulo(a, m), expected(-x), "{a} {m}");
            assert_eq!(
                residues::product_modulo(a, b, m),
                expected(x * y),
                "{a} {b} {m}"
            );
            assert_eq!(residues::power_modulo(a, 2, m), expected(x * x), "{a} {m}");
        }
    }
}

#[test]
fn as_the_plain_calls_at_a_positive_modulus() {
    for m in i8::MIN..=i8::MAX {
        for (a, b) in pairs() {
            let is_positive = m > 0;
            let plain = is_positive.then(|| modular::inverse_modulo(a, m)).flatten();
            assert_eq!(residues::inverse_modulo(a, m), plain, "{a} {m}");
            let plain = is_positive
                .then(|| modular::quotient_modulo(a, b, m))
                .flatten();
            assert_eq!(residues::quotient_modulo(a, b, m), plain, "{a} {b} {m}");
            let plain = is_positive.then(|| modular::solutions(a, b, m)).flatten();
            assert_eq!(residues::solutions(a, b, m), plain, "{a} {b} {m}");
            let plain = is_positive
                .then(|| modular::next_congruent(a, b, m))
                .flatten();
            assert_eq!(residues::next_congruent(a, b, m), plain, "{a} {b} {m}");
            let plain = is_positive
                .then(|| modular::previous_congruent(a, b, m))
                .flatten();
            assert_eq!(residues::previous_congruent(a, b, m), plain, "{a} {b} {m}");
            let plain = is_positive
                .then(|| modular::count_congruent(a, b, 1, m))
                .flatten();
            assert_eq!(residues::count_congruent(a, b, 1, m), plain, "{a} {b} {m}");
            let plain =
                is_positive.then(|| modular::next_common_solution(a, (b, m).into(), (1, 3).into()));
            assert_eq!(
                residues::next_common_solution(a, (b, m).into(), (1, 3).into()),
                plain,
                "{a} {b} {m}"
            );
            let pairs = [(b, m).into(), (1, 3).into()];
            let plain = is_positive.then(|| modular::next_common_solution_of(a, &pairs));
            assert_eq!(
                residues::next_common_solution_of(a, &pairs),
                plain,
                "{a} {b} {m}"
            );
            let plain = (is_positive && m.lcm_fits(&3))
                .then(|| modular::chinese_remainder((a, m).into(), (b, 3).into()))
                .flatten();
            assert_eq!(
                residues::chinese_remainder((a, m).into(), (b, 3).into()),
                plain,
                "{a} {b} {m}"
            );
        }
    }
    returns! {
        residues::next_common_solution(0i8, (1, 2).into(), (1, 0).into()) => None;
        residues::next_common_solution_of(0i8, &[(1, 2).into(), (1, 0).into()]) => None;
        residues::next_common_solution_of(5i8, &[]) => Some(CommonSolution::At(5));
        residues::chinese_remainder((1i8, 2).into(), (1, 0).into()) => None;
        residues::chinese_remainder((1i8, 4).into(), (3, 6).into()) => Some((9, 12).into());
    }
}

#[test]
fn value_of_a_common_solution() {
    assert_eq!(CommonSolution::At(21u64).value(), Some(21));
    assert_eq!(CommonSolution::<u64>::Never.value(), None);
    assert_eq!(CommonSolution::<u64>::Beyond.value(), None);
}

#[test]
fn operators_and_pairs_of_signed_bytes() {
    for a in i8::MIN..=i8::MAX {
        for b in i8::MIN..=i8::MAX {
            assert_eq!(a.sum_fits(&b), a.checked_add(b).is_some(), "{a} {b}");
            assert_eq!(a.difference_fits(&b), a.checked_sub(b).is_some(), "{a} {b}");
            assert_eq!(a.product_fits(&b), a.checked_mul(b).is_some(), "{a} {b}");
            let has_pair = checked::extended_gcd(a, b).is_some();
            assert_eq!(a.gcd_fits(&b) && a.pair_fits(&b), has_pair, "{a} {b}");
        }
    }
}

#[test]
fn operators_and_pairs_of_unsigned_bytes() {
    for a in u8::MIN..=u8::MAX {
        for b in u8::MIN..=u8::MAX {
            assert_eq!(a.sum_fits(&b), a.checked_add(b).is_some(), "{a} {b}");
            assert_eq!(a.difference_fits(&b), a.checked_sub(b).is_some(), "{a} {b}");
            assert_eq!(a.product_fits(&b), a.checked_mul(b).is_some(), "{a} {b}");
            let divides = |x: u8, y: u8| if x == 0 { y == 0 } else { y % x == 0 };
            assert_eq!(a.pair_fits(&b), divides(a, b) || divides(b, a), "{a} {b}");
        }
    }
}

#[test]
fn fractions_rounded_to_parts() {
    for num in -30..=30i64 {
        for den in 1..=9 {
            let x = Ratio::new(num, den).unwrap();
            for parts in 1..=12 {
                let product = num * parts;
                let below = product.div_euclid(den);
                let above = -(-product).div_euclid(den);
                let nearest = (2 * product.abs() + den) / (2 * den) * product.signum();
                assert_eq!(x.floor_to(parts), Ratio::new(below, parts), "{x} {parts}");
                assert_eq!(x.ceil_to(parts), Ratio::new(above, parts), "{x} {parts}");
                assert_eq!(x.round_to(parts), Ratio::new(nearest, parts), "{x} {parts}");
                let times = x.checked_times(parts, den);
                assert_eq!(times, Ratio::new(product, den * den), "{x} {parts}");
            }
        }
    }
}

#[test]
fn roundings_at_the_ends() {
    let (least, largest) = (Ratio::from(i64::MIN), Ratio::from(i64::MAX));
    assert_eq!(least.floor_to(4), Ok(least));
    assert_eq!(largest.ceil_to(i64::MAX), Ok(largest));
    assert_eq!(
        Ratio::new(i64::MAX, 2).unwrap().ceil_to(1),
        Ok(Ratio::from(1i64 << 62))
    );
    assert_eq!(largest.checked_times(2, 1), Err(RatioError::NotFitting));
    assert_eq!(largest.checked_times(i64::MIN, i64::MIN), Ok(largest));
    assert_eq!(least.checked_times(1, 0), Err(RatioError::ZeroDenominator));
    let below_one = Ratio::new(i64::MAX - 1, i64::MAX).unwrap();
    assert_eq!(below_one.floor_to(i64::MAX), Ok(below_one));
    assert_eq!(below_one.round_to(1), Ok(Ratio::from(1)));
    assert_eq!(below_one.round_even_to(1), Ok(Ratio::from(1)));
    assert_eq!(least.round_even_to(i64::MAX), Ok(least));
    let tiny = Ratio::new(1, i64::MAX).unwrap();
    assert_eq!((tiny.round_even(), below_one.round_even()), (0, 1));
    assert_eq!(least.round_even_times(-1), None);
    assert_eq!(tiny.round_even_times(i64::MIN), Some(-1));
}

#[test]
fn no_parts() {
    for parts in [0, -1, i64::MIN] {
        let half = Ratio::new(1, 2).unwrap();
        assert!(catch_unwind(|| half.floor_to(parts)).is_err(), "{parts}");
        assert!(catch_unwind(|| half.ceil_to(parts)).is_err(), "{parts}");
        assert!(catch_unwind(|| half.round_to(parts)).is_err(), "{parts}");
        assert!(
            catch_unwind(|| half.round_even_to(parts)).is_err(),
            "{parts}"
        );
    }
}
