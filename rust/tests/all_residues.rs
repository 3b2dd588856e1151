//! Residues, congruent numbers and common solutions at each number of a byte, against computation in 32 bits by trial.

use cellarcove::modular::{
    chinese_remainder, count_congruent, counted::power_modulo_counted, difference_modulo,
    inverse_modulo, negation_modulo, next_common_solution, next_common_solution_of, next_congruent,
    power_modulo, previous_congruent, product_modulo, quotient_modulo, residue, solutions,
    sum_modulo, CommonSolution, Congruence,
};

/// The numbers x from 0 to below `m` for which `a` times x is `b` modulo `m`: the first and the step.
fn factors(a: i32, b: i32, m: i32) -> Option<(i32, i32)> {
    let mut found = (0..m).filter(|x| (a * x - b) % m == 0);
    let first = found.next()?;
    Some((first, found.next().map_or(m, |second| second - first)))
}

/// The only such number.
fn only_factor(a: i32, b: i32, m: i32) -> Option<i32> {
    factors(a, b, m).and_then(|(x, step)| (step == m).then_some(x))
}

fn power_of(a: i32, exponent: u32, m: i32) -> i32 {
    (0..exponent).fold(1 % m, |power, _| (power * a).rem_euclid(m))
}

/// A first number and a step.
const CLASSES: [(i32, i32); 9] = [
    (0, 1),
    (1, 2),
    (5, 3),
    (0, 10),
    (63, 64),
    (127, 100),
    (1, 126),
    (0, 127),
    (126, 127),
];

macro_rules! all_bytes {
    ($($name:ident $number:ident)*) => {$(
        mod $name {
            use super::*;

            const LOW: i32 = $number::MIN as i32;
            const HIGH: i32 = $number::MAX as i32;

            /// The number as a byte, if it fits.
            fn byte(z: i32) -> Option<$number> {
                $number::try_from(z).ok()
            }

            /// A number that is sure to fit.
            fn sure(z: i32) -> $number {
                z as $number
            }

            #[test]
            fn numbers() {
                for m in 1..=HIGH {
                    let n = sure(m);
                    for a in LOW..=HIGH {
                        let x = sure(a);
                        let found = (i32::from(residue(x, n)), i32::from(negation_modulo(x, n)));
                        assert_eq!(found, (a.rem_euclid(m), (-a).rem_euclid(m)), "{a} {m}");
                        let inverse = only_factor(a, 1, m).and_then(byte);
                        assert_eq!(inverse_modulo(x, n), inverse, "{a} {m}");
                        let quotient = only_factor(a, 77, m).and_then(byte);
                        assert_eq!(quotient_modulo(77, x, n), quotient, "{a} {m}");
                        let class = factors(a, 60, m).map(|(first, step)| (sure(first), sure(step)));
                        assert_eq!(solutions(x, 60, n), class, "{a} {m}");
                    }
                }
            }

            #[test]
            fn powers() {
                for m in (1..=HIGH).step_by(3) {
                    for a in LOW..=HIGH {
                        for exponent in [0, 1, 2, 3, 13, 18] {
                            let power = sure(power_of(a, exponent, m));
                            let iterations = exponent.checked_ilog2().unwrap_or(0);
                            let (x, e, n) = (sure(a), exponent.into(), sure(m));
                            assert_eq!(power_modulo(x, e, n), power, "{a} {exponent} {m}");
                            let counted = power_modulo_counted(x, e, n);
                            assert_eq!(counted, (power, iterations), "{a} {exponent} {m}");
                        }
                    }
                }
            }

            #[test]
            fn pairs() {
                for m in [1, 100, 127, 255].into_iter().filter(|m| *m <= HIGH) {
                    for a in LOW..=HIGH {
                        for b in LOW..=HIGH {
                            let (x, y, n) = (sure(a), sure(b), sure(m));
                            assert_eq!(i32::from(sum_modulo(x, y, n)), (a + b).rem_euclid(m));
                            assert_eq!(i32::from(difference_modulo(x, y, n)), (a - b).rem_euclid(m));
                            assert_eq!(i32::from(product_modulo(x, y, n)), (a * b).rem_euclid(m));
                        }
                    }
                }
            }

            /// The congruent numbers of a range, in increasing order.
            fn congruent(from: i32, to: i32, (first, step): (i32, i32)) -> impl DoubleEndedIterator<Item = i32> {
                (from..=to).filter(move |x| (x - first) % step == 0)
            }

            #[test]
            fn congruent_numbers() {
                for class in CLASSES {
                    let (first, step) = (sure(class.0), sure(class.1));
                    for n in LOW..=HIGH {
                        let next = congruent(n, HIGH, class).next().and_then(byte);
                        let previous = congruent(LOW, n, class).next_back().and_then(byte);
                        assert_eq!(next_congruent(sure(n), first, step), next, "{n} {class:?}");
                        assert_eq!(previous_congruent(sure(n), first, step), previous, "{n} {class:?}");
                    }
                    for from in (LOW..=HIGH).step_by(25) {
                        for to in LOW..=HIGH {
                            let count = byte(congruent(from, to, class).count() as i32);
                            let found = count_congruent(sure(from), sure(to), first, step);
                            assert_eq!(found, count, "{from} {to} {class:?}");
                        }
                    }
                }
            }

            /// Two congruences whose moduli have a common multiple of at most 120.
            #[test]
            fn common_solutions_of_two() {
                let moduli = [1, 2, 3, 4, 6, 8, 10];
                for (m, n) in moduli.iter().flat_map(|m| moduli.map(|n| (*m, n))) {
                    for (a, b) in (0..m).flat_map(|a| (0..n).map(move |b| (a, b))) {
                        let solves = |x: &i32| (x - a) % m == 0 && (x - b) % n == 0;
                        let least = (0..120).find(solves);
                        let second = (0..240).filter(solves).nth(1);
                        let class = least.zip(second).map(|(x, y)| Congruence { residue: sure(x), modulus: sure(y - x) });
                        let first = Congruence { residue: sure(a), modulus: sure(m) };
                        let second = Congruence { residue: sure(b), modulus: sure(n) };
                        assert_eq!(chinese_remainder(first, second), class, "{a} {m} {b} {n}");
                        for from in (LOW..=HIGH).step_by(5) {
                            let next = match (from..from + 120).find(solves) {
                                Some(x) => byte(x).map_or(CommonSolution::Beyond, CommonSolution::At),
                                None => CommonSolution::Never,
                            };
                            assert_eq!(next_common_solution(sure(from), first, second), next, "{from}");
                        }
                    }
                }
            }
        }
    )*};
}

all_bytes! { signed i8 unsigned u8 }

/// Three congruences, each a number with a modulus.
const CONGRUENCES: [[(i8, i8); 3]; 10] = [
    [(0, 1), (0, 1), (0, 1)],
    [(1, 4), (3, 6), (0, 7)],
    [(1, 2), (2, 3), (4, 5)],
    [(1, 4), (2, 6), (0, 5)],
    [(0, 11), (0, 13), (0, 7)],
    [(5, 10), (0, 13), (5, 6)],
    [(5, 10), (0, 13), (4, 6)],
    [(2, 10), (2, 13), (1, 9)],
    [(7, 12), (7, 13), (7, 14)],
    [(0, 16), (8, 12), (3, 9)],
];

#[test]
fn common_solutions_of_three() {
    for congruences in CONGRUENCES {
        let solves = |x: &i32| {
            congruences
                .iter()
                .all(|(a, m)| (x - i32::from(*a)) % i32::from(*m) == 0)
        };
        for from in i8::MIN..=i8::MAX {
            let expected = match (i32::from(from)..12000).find(solves) {
                Some(x) => i8::try_from(x).map_or(CommonSolution::Beyond, CommonSolution::At),
                None => CommonSolution::Never,
            };
            assert_eq!(
                next_common_solution_of(from, &congruences.map(Congruence::from)),
                expected,
                "{from} {congruences:?}"
            );
        }
    }
}
