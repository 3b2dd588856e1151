//! Random numbers of 16 to 128 bits. The answers are made of the operators of `core` that check.

use crate::check;
use crate::exact::Random;
use cellarcove::{binomial, modular, multinomial, operators, Fits, Integer, IterBinomial, Roots};

const ROUNDS: usize = if cfg!(debug_assertions) { 400 } else { 4000 };

/// The greatest common divisor of two magnitudes.
fn gcd(a: u128, b: u128) -> u128 {
    let (mut a, mut b) = (a, b);
    while b != 0 {
        (a, b) = (b, a % b);
    }
    a
}

/// The least common multiple of two magnitudes.
fn lcm(a: u128, b: u128) -> Option<u128> {
    if a == 0 || b == 0 {
        Some(0)
    } else {
        a.checked_mul(b / gcd(a, b))
    }
}

/// The number of choices, where it is at most `most`. Each product is divided first, so none overflows at less.
fn coefficient(n: u128, k: u128, most: u128) -> Option<u128> {
    if k > n {
        return Some(0);
    }
    let mut coefficient = 1_u128;
    for i in 0..k.min(n - k) {
        let (over, under) = (n - i, i + 1);
        let common = gcd(coefficient, under);
        coefficient = (coefficient / common).checked_mul(over / (under / common))?;
        if coefficient > most {
            return None;
        }
    }
    Some(coefficient)
}

macro_rules! tests {
    ($($name:ident $number:ident;)*) => {$(
        #[test]
        fn $name() {
            type N = $number;
            let size = |x: N| x.parts().1;
            let fit = |z: u128| N::try_from(z).ok();
            let mut random = Random(N::BITS.into());
            for round in 0..ROUNDS {
                let (a, b, c) = (random.number() as N, random.number() as N, random.number() as N);
                let pair = (a, b);
                // Division.
                let quotient = a.checked_div(b);
                let rest = if b == 0 { None } else { Some(a.checked_rem(b).unwrap_or(0)) };
                let zero = N::default();
                let apart = |rest: N| rest != zero && (rest < zero) != (b < zero);
                let along = |rest: N| rest != zero && (rest < zero) == (b < zero);
                let over = rest.map(|rest| if apart(rest) { rest + b } else { rest });
                let down = quotient.and_then(|q| Some(q - N::from(apart(rest?))));
                let up = quotient.and_then(|q| Some(q + N::from(along(rest?))));
                check("div_rem", pair, quotient.and_then(|q| Some((q, rest?))), || a.div_rem(&b));
                check("div_floor", pair, down, || Integer::div_floor(&a, &b));
                check("mod_floor", pair, over, || a.mod_floor(&b));
                check("div_mod_floor", pair, down.and_then(|q| Some((q, over?))), || a.div_mod_floor(&b));
                check("div_ceil", pair, up, || Integer::div_ceil(&a, &b));
                let before = over.and_then(|rest| a.checked_sub(rest));
                let after = over.and_then(|rest| if rest == 0 { Some(a) } else { a.checked_add(b - rest) });
                check("prev_multiple_of", pair, before, || a.prev_multiple_of(&b));
                check("next_multiple_of", pair, after, || Integer::next_multiple_of(&a, &b));
                // Divisors.
                let common = fit(gcd(size(a), size(b)));
                let multiple = lcm(size(a), size(b)).and_then(fit);
                check("gcd", pair, common, || a.gcd(&b));
                check("lcm", pair, multiple, || a.lcm(&b));
                check("gcd_lcm", pair, common.and_then(|gcd| Some((gcd, multiple?))), || a.gcd_lcm(&b));
                let divides = |a: N, b: N| if a == 0 { b == 0 } else { b.checked_rem(a).unwrap_or(0) == 0 };
                let has_pair = N::MIN != 0 || divides(a, b) || divides(b, a);
                check("extended_gcd", pair, common.filter(|_| has_pair).map(|gcd| (gcd, gcd)), || {
                    let answer = a.extended_gcd(&b);
                    let sum = answer.x.wrapping_mul(a).wrapping_add(answer.y.wrapping_mul(b));
                    (answer.gcd, sum)
                });
                // Operators.
                check("sum", pair, a.checked_add(b), || operators::sum(a, b));
                check("difference", pair, a.checked_sub(b), || operators::difference(a, b));
                check("product", pair, a.checked_mul(b), || operators::product(a, b));
                check("quotient", pair, quotient, || operators::quotient(a, b));
                check("remainder", pair, quotient.and(rest), || operators::remainder(a, b));
                check("negated", a, a.checked_neg(), || operators::negated(a));
                check("inc", a, a.checked_add(1), || { let mut x = a; x.inc(); x });
                check("dec", a, a.checked_sub(1), || { let mut x = a; x.dec(); x });
                // Residues.
                let above_zero = b > 0;
                let residue = over.filter(|_| above_zero);
                check("residue", pair, residue, || modular::residue(a, b));
                check("product_modulo", pair, residue, || modular::product_modulo(a, 1, b));
                check("power_modulo", pair, residue, || modular::power_modulo(a, 1, b));
                check("sum_modulo", pair, residue, || modular::sum_modulo(a, b, b));
                check("next_congruent", pair, Some(Some(a)).filter(|_| above_zero), || modular::next_congruent(a, a, b));
                let inverse = above_zero && gcd(size(a), size(b)) == 1;
                check("inverse_modulo", pair, Some(inverse).filter(|_| above_zero), || modular::inverse_modulo(a, b).is_some());
                let step = multiple.filter(|_| a > 0 && b > 0);
                check("chinese_remainder", pair, step.map(|step| Some((c.rem_euclid(step), step).into())), || {
                    modular::chinese_remainder((c, a).into(), (c, b).into())
                });
                // Coefficients.
                let (n, k) = if round % 2 == 0 { (a, b) } else { (a, (size(b) % 40) as N) };
                let ways = if n < zero || k < zero { None } else { coefficient(size(n), size(k), N::MAX as u128).and_then(fit) };
                check("binomial", (n, k), ways, || binomial(n, k));
                if zero <= k && k <= n {
                    check("multinomial", (n, k), ways, || multinomial(&[n - k, k]));
                }
                if n < zero || k < zero {
                    check("multinomial", (n, k), None, || multinomial(&[n, k]));
                }
            }
            // Rows: up to the greatest that fits, and of those after it the items that fit.
            for n in (0..140).map(<N as From<u8>>::from) {
                let mut row = IterBinomial::new(n);
                for k in 0..=n {
                    let item = coefficient(size(n), size(k), N::MAX as u128).and_then(fit);
                    check("next", (n, k), item.map(Some), || row.next());
                    if item.is_none() {
                        break;
                    }
                }
            }
        }
    )*};
}

tests! {
    of_16_bits i16;
    of_16_bits_unsigned u16;
    of_32_bits i32;
    of_32_bits_unsigned u32;
    of_64_bits i64;
    of_64_bits_unsigned u64;
    of_128_bits i128;
    of_128_bits_unsigned u128;
    of_words isize;
    of_words_unsigned usize;
}

macro_rules! roots {
    ($($name:ident $number:ident)*) => {$(
        #[test]
        fn $name() {
            let mut random = Random(7);
            for _ in 0..ROUNDS {
                let (a, degree) = (random.number() as $number, (random.bits() % 70) as u32);
                let has_root = degree > 0 && (degree % 2 == 1 || !a.parts().0);
                check("nth_root", (a, degree), Some(true).filter(|_| has_root), || {
                    let (_, root) = a.nth_root(degree).parts();
                    let next = (root + 1).checked_pow(degree);
                    root.pow(degree) <= a.parts().1 && !next.is_some_and(|power| power <= a.parts().1)
                });
                check("sqrt", a, Some(true).filter(|_| !a.parts().0), || {
                    let root = a.sqrt().parts().1;
                    root * root <= a.parts().1 && (root + 1) * (root + 1) > a.parts().1
                });
            }
        }
    )*};
}

roots! { roots_of_16_bits i16 roots_of_32_bits i32 roots_of_64_bits i64 roots_of_64_bits_unsigned u64 roots_of_words usize }
