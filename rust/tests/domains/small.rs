//! Every pair of numbers of 8 bits, and every number.

use crate::{check, exact};
use cellarcove::applied::{halving, layout, paging, powers, schedules};
use cellarcove::counted::{
    binomial_counted, extended_gcd_counted, power_modulo_counted, GcdCounted, SqrtCounted,
};
use cellarcove::modular::{self, Modular};
use cellarcove::{operators, Average, Integer, IterBinomial, Roots};

/// A number of the type, or `None` where it does not fit.
macro_rules! fit {
    ($number:ident, $x:expr) => {
        <$number>::try_from($x).ok()
    };
}

macro_rules! tests {
    ($name:ident $number:ident) => {
        mod $name {
            use super::*;

            type N = $number;
            const MOST: i128 = N::MAX as i128;

            /// Calls with each pair, and its two numbers as whole numbers.
            fn each_pair(call: impl Fn(N, N, i128, i128)) {
                for a in N::MIN..=N::MAX {
                    for b in N::MIN..=N::MAX {
                        call(a, b, i128::from(a), i128::from(b));
                    }
                }
            }

            /// A third argument: an end, a small number, or another one.
            fn third(a: N, b: N) -> N {
                let choice = a.wrapping_mul(31).wrapping_add(b.wrapping_mul(17)) as u8;
                let numbers = [
                    N::MIN,
                    0,
                    1,
                    5,
                    N::MAX - 1,
                    (0 as N).wrapping_sub(1),
                    choice as N,
                ];
                numbers[usize::from(choice % 7)]
            }

            #[test]
            fn division() {
                each_pair(|a, b, x, y| {
                    let quotient = y != 0 && fit!(N, if y == 0 { 0 } else { x / y }).is_some();
                    let pair = (a, b);
                    let rounded = |z: i128| fit!(N, z).filter(|_| quotient);
                    let (down, up, toward_zero) = if y == 0 {
                        (0, 0, 0)
                    } else {
                        (exact::floor(x, y), exact::ceil(x, y), x / y)
                    };
                    let over = |q: i128| if y == 0 { None } else { fit!(N, x - q * y) };
                    let both = |q: i128| Some((rounded(q)?, over(q)?));
                    check("div_rem", pair, both(toward_zero), || a.div_rem(&b));
                    check("div_rem", pair, both(toward_zero), || {
                        cellarcove::div_rem(a, b)
                    });
                    check("div_floor", pair, rounded(down), || {
                        Integer::div_floor(&a, &b)
                    });
                    check("div_floor", pair, rounded(down), || {
                        cellarcove::div_floor(a, b)
                    });
                    check("mod_floor", pair, over(down), || a.mod_floor(&b));
                    check("mod_floor", pair, over(down), || {
                        cellarcove::mod_floor(a, b)
                    });
                    check("div_mod_floor", pair, both(down), || a.div_mod_floor(&b));
                    check("div_mod_floor", pair, both(down), || {
                        cellarcove::div_mod_floor(a, b)
                    });
                    check("div_ceil", pair, rounded(up), || Integer::div_ceil(&a, &b));
                    check("div_ceil", pair, rounded(up), || cellarcove::div_ceil(a, b));
                    let multiple = |q: i128| if y == 0 { None } else { fit!(N, q * y) };
                    check("next_multiple_of", pair, multiple(up), || {
                        Integer::next_multiple_of(&a, &b)
                    });
                    check("prev_multiple_of", pair, multiple(down), || {
                        a.prev_multiple_of(&b)
                    });
                    check("quotient", pair, rounded(toward_zero), || {
                        operators::quotient(a, b)
                    });
                    check(
                        "remainder",
                        pair,
                        rounded(toward_zero).and(over(toward_zero)),
                        || operators::remainder(a, b),
                    );
                    let is_multiple = if y == 0 { x == 0 } else { x % y == 0 };
                    check("is_multiple_of", pair, Some(is_multiple), || {
                        Integer::is_multiple_of(&a, &b)
                    });
                    #[allow(deprecated)]
                    check("divides", pair, Some(is_multiple), || a.divides(&b));
                });
            }

            #[test]
            fn divisors() {
                each_pair(|a, b, x, y| {
                    let pair = (a, b);
                    let gcd = fit!(N, exact::gcd(x, y));
                    let lcm = exact::lcm(x, y).and_then(|multiple| fit!(N, multiple));
                    let both = gcd.and_then(|gcd| Some((gcd, lcm?)));
                    check("gcd", pair, gcd, || a.gcd(&b));
                    check("gcd", pair, gcd, || cellarcove::gcd(a, b));
                    check("gcd_counted", pair, gcd, || a.gcd_counted(&b).0);
                    check("lcm", pair, lcm, || a.lcm(&b));
                    check("lcm", pair, lcm, || cellarcove::lcm(a, b));
                    check("gcd_lcm", pair, both, || a.gcd_lcm(&b));
                    check("gcd_lcm", pair, both, || cellarcove::gcd_lcm(a, b));
                    let has_pair = N::MIN != 0 || exact::divides(x, y);
                    let bezout = gcd.filter(|_| has_pair).map(|gcd| (gcd, true));
                    let solves = |gcd: N, p: N, q: N| {
                        i128::from(p) * x + i128::from(q) * y == i128::from(gcd)
                    };
                    check("extended_gcd", pair, bezout, || {
                        let answer = a.extended_gcd(&b);
                        (answer.gcd, solves(answer.gcd, answer.x, answer.y))
                    });
                    check("extended_gcd_counted", pair, bezout, || {
                        let answer = extended_gcd_counted(a, b).0;
                        (answer.gcd, solves(answer.gcd, answer.x, answer.y))
                    });
                });
            }

            #[test]
            fn sums_and_products() {
                each_pair(|a, b, x, y| {
                    check("sum", (a, b), fit!(N, x + y), || operators::sum(a, b));
                    check("difference", (a, b), fit!(N, x - y), || {
                        operators::difference(a, b)
                    });
                    check("product", (a, b), fit!(N, x * y), || {
                        operators::product(a, b)
                    });
                    check(
                        "average_floor",
                        (a, b),
                        fit!(N, (x + y).div_euclid(2)),
                        || a.average_floor(&b),
                    );
                    check(
                        "average_ceil",
                        (a, b),
                        fit!(N, (x + y + 1).div_euclid(2)),
                        || a.average_ceil(&b),
                    );
                    check("midpoint", (a, b), fit!(N, (x + y).div_euclid(2)), || {
                        halving::midpoint(a, b)
                    });
                });
                for a in N::MIN..=N::MAX {
                    let x = i128::from(a);
                    check("successor", a, fit!(N, x + 1), || operators::successor(a));
                    check("predecessor", a, fit!(N, x - 1), || {
                        operators::predecessor(a)
                    });
                    check("negated", a, fit!(N, -x), || operators::negated(a));
                    let (mut up, mut down) = (a, a);
                    check("inc", a, fit!(N, x + 1).map(|_| ()), || up.inc());
                    check("dec", a, fit!(N, x - 1).map(|_| ()), || down.dec());
                    assert_eq!(
                        (up, down),
                        (fit!(N, x + 1).unwrap_or(a), fit!(N, x - 1).unwrap_or(a))
                    );
                }
            }

            #[test]
            fn roots() {
                for a in N::MIN..=N::MAX {
                    let x = i128::from(a);
                    let root = |degree| exact::root(x, degree).and_then(|root| fit!(N, root));
                    check("sqrt", a, root(2), || a.sqrt());
                    check("sqrt", a, root(2), || cellarcove::sqrt(a));
                    check("sqrt_counted", a, root(2), || a.sqrt_counted().0);
                    check("cbrt", a, root(3), || a.cbrt());
                    check("cbrt", a, root(3), || cellarcove::cbrt(a));
                    check(
                        "is_square",
                        a,
                        Some(root(2).is_some_and(|r| i128::from(r).pow(2) == x)),
                        || powers::is_square(a),
                    );
                    for degree in (0..10).chain([u32::MAX - 1, u32::MAX]) {
                        let root = if degree < 10 {
                            root(degree)
                        } else {
                            root(degree % 2 + 10)
                        };
                        check("nth_root", (a, degree), root, || a.nth_root(degree));
                        check("nth_root", (a, degree), root, || {
                            cellarcove::nth_root(a, degree)
                        });
                        if degree < 10 {
                            let is_power = root.is_some_and(|r| i128::from(r).pow(degree) == x);
                            let answer = if degree == 0 { None } else { Some(is_power) };
                            check("is_power", (a, degree), answer, || {
                                powers::is_power(a, degree)
                            });
                        }
                    }
                }
            }

            #[test]
            fn coefficients() {
                each_pair(|a, b, x, y| {
                    let coefficient = exact::coefficient(x, y, MOST).and_then(|c| fit!(N, c));
                    check("binomial", (a, b), coefficient, || {
                        cellarcove::binomial(a, b)
                    });
                    check("binomial_counted", (a, b), coefficient, || {
                        binomial_counted(a, b).0
                    });
                    let counts = [a, b, third(a, b)];
                    let ways = exact::multinomial(&counts.map(i128::from), MOST)
                        .and_then(|ways| fit!(N, ways));
                    check("multinomial", counts, ways, || {
                        cellarcove::multinomial(&counts)
                    });
                });
            }

            // Debian's Rust 1.78, with LLVM 16, compiles a loop over all numbers of `u8` here so
            // that it never ends, so this one is over integers of 128 bits.
            #[test]
            fn rows() {
                for whole in i128::from(N::MIN)..=MOST {
                    let n = N::try_from(whole).unwrap();
                    let mut row = IterBinomial::new(n);
                    let mut fitting = true;
                    for k in 0..=i128::from(n) {
                        let item =
                            exact::coefficient(i128::from(n), k, MOST).and_then(|c| fit!(N, c));
                        fitting &= item.is_some();
                        check("next", (n, k), item.filter(|_| fitting).map(Some), || {
                            row.next()
                        });
                    }
                    check("next", n, if fitting { Some(None) } else { None }, || {
                        row.next()
                    });
                    check(
                        "count",
                        n,
                        if fitting {
                            Some(1.max(i128::from(n) + 1))
                        } else {
                            None
                        },
                        || {
                            let mut count = 0;
                            for _ in IterBinomial::new(n) {
                                count += 1;
                            }
                            if n.wrapping_add(1) < n {
                                1
                            } else {
                                count.max(1)
                            }
                        },
                    );
                }
            }

            #[test]
            fn residues() {
                each_pair(|a, m, x, modulus| {
                    let answer = |z: &dyn Fn(i128) -> i128| {
                        if modulus > 0 {
                            fit!(N, exact::residue(z(modulus), modulus))
                        } else {
                            None
                        }
                    };
                    check("residue", (a, m), answer(&|_| x), || modular::residue(a, m));
                    check("negation_modulo", (a, m), answer(&|_| -x), || {
                        modular::negation_modulo(a, m)
                    });
                    let gcd = exact::gcd(x, modulus);
                    check(
                        "inverse_modulo",
                        (a, m),
                        Some(gcd == 1).filter(|_| modulus > 0),
                        || modular::inverse_modulo(a, m).is_some(),
                    );
                    let b = third(a, m);
                    let (args, y) = ((a, b, m), i128::from(b));
                    check("sum_modulo", args, answer(&|_| x + y), || {
                        modular::sum_modulo(a, b, m)
                    });
                    check("difference_modulo", args, answer(&|_| x - y), || {
                        modular::difference_modulo(a, b, m)
                    });
                    check("product_modulo", args, answer(&|_| x * y), || {
                        modular::product_modulo(a, b, m)
                    });
                    check("product_modulo", args, answer(&|_| x * y), || {
                        a.product_modulo(&b, &m)
                    });
                    check("power_modulo", args, answer(&|_| x * x * x), || {
                        modular::power_modulo(a, 3, m)
                    });
                    check("power_modulo_counted", args, answer(&|_| x * x), || {
                        power_modulo_counted(a, 2, m).0
                    });
                    check("power_modulo_counted", args, answer(&|_| x * x), || {
                        a.power_modulo_counted(2, &m).0
                    });
                    check(
                        "quotient_modulo",
                        args,
                        Some(gcd == 1).filter(|_| modulus > 0),
                        || modular::quotient_modulo(b, a, m).is_some(),
                    );
                    let solved = modulus > 0 && exact::residue(y, gcd.max(1)) == 0;
                    check(
                        "solutions",
                        args,
                        Some(solved).filter(|_| modulus > 0),
                        || modular::solutions(a, b, m).is_some(),
                    );
                });
            }

            #[test]
            fn steps() {
                each_pair(|a, step, x, y| {
                    let first = 3;
                    let ahead = |from: i128| fit!(N, from + exact::residue(3 - from, y));
                    let behind = |to: i128| fit!(N, to - exact::residue(to - 3, y));
                    let within = |z: &dyn Fn() -> Option<N>| if y > 0 { Some(z()) } else { None };
                    check("next_congruent", (a, step), within(&|| ahead(x)), || {
                        modular::next_congruent(a, first, step)
                    });
                    check(
                        "previous_congruent",
                        (a, step),
                        within(&|| behind(x)),
                        || modular::previous_congruent(a, first, step),
                    );
                    let to = third(a, step);
                    let count = || {
                        let to = i128::from(to);
                        fit!(
                            N,
                            (exact::floor(to - 3, y) - exact::ceil(x - 3, y) + 1).max(0)
                        )
                    };
                    check("count_congruent", (a, to, step), within(&count), || {
                        modular::count_congruent(a, to, first, step)
                    });
                    check(
                        "pages",
                        (a, step),
                        within(&|| fit!(N, exact::ceil(x, y))).flatten(),
                        || paging::pages(a, step),
                    );
                    let place = || fit!(N, exact::residue(x, y));
                    check("place_of", (a, step), within(&place).flatten(), || {
                        paging::place_of(a, step).1
                    });
                    check(
                        "padding",
                        (a, step),
                        within(&|| fit!(N, exact::residue(-x, y))).flatten(),
                        || layout::padding(a, step),
                    );
                    check(
                        "align_up",
                        (a, step),
                        within(&|| fit!(N, exact::ceil(x, y) * y)),
                        || layout::align_up(a, step),
                    );
                });
            }

            #[test]
            fn two_moduli() {
                each_pair(|m, n, x, y| {
                    let above_zero = x > 0 && y > 0;
                    let lcm = if above_zero {
                        exact::lcm(x, y).and_then(|lcm| fit!(N, lcm))
                    } else {
                        None
                    };
                    let gap = third(m, n).rem_euclid(3);
                    let solved = above_zero && i128::from(gap) % exact::gcd(x, y) == 0;
                    check(
                        "chinese_remainder",
                        (m, n, gap),
                        if above_zero && !solved { Some(None) } else { lcm.map(Some) },
                        || modular::chinese_remainder((1, m).into(), (1 + gap, n).into()).map(|class| class.modulus),
                    );
                    let never = Some(!solved).filter(|_| above_zero);
                    let is_never = |answer| answer == modular::CommonSolution::Never;
                    check("next_common_solution", (m, n, gap), never, || {
                        is_never(modular::next_common_solution(0, (1, m).into(), (1 + gap, n).into()))
                    });
                    check("next_common_solution_of", (m, n, gap), never, || {
                        is_never(modular::next_common_solution_of(0, &[(1, m).into(), (1 + gap, n).into()]))
                    });
                    check("next_meeting", (m, n, gap), never, || {
                        is_never(schedules::next_meeting(0, (1, m).into(), (1 + gap, n).into()))
                    });
                    check("next_meeting_of", (m, n, gap), never, || {
                        is_never(schedules::next_meeting_of(0, &[(1, m).into(), (1 + gap, n).into()]))
                    });
                });
            }

            #[test]
            fn pages_and_parts() {
                each_pair(|a, b, x, y| {
                    let c = third(a, b);
                    let (args, z) = ((a, b, c), i128::from(c));
                    let items = |first: i128, end: i128| Some((fit!(N, first)?, fit!(N, end)?));
                    let page = if y > 0 && z >= 0 {
                        let first = (x * y).clamp(0, z);
                        items(
                            if x < 0 { z } else { first },
                            if x < 0 { z } else { (x * y + y).clamp(0, z) },
                        )
                    } else {
                        None
                    };
                    check("range_of_page", args, page, || {
                        paging::range_of_page(a, b, c)
                    });
                    let part = if 0 <= x && x < y && z >= 0 {
                        let cut = |part: i128| part * (z / y) + part.min(z % y);
                        items(cut(x), cut(x + 1))
                    } else {
                        None
                    };
                    check("range_of_part", args, part, || {
                        paging::range_of_part(a, b, c)
                    });
                    let item = Some(fit!(N, x * z + y)).filter(|_| 0 <= y && y < z);
                    check("item_at", args, item, || paging::item_at(a, b, c));
                });
            }
        }
    };
}

tests! { signed i8 }
tests! { unsigned u8 }

/// The call of signed types alone.
#[test]
fn extended_gcd_lcm() {
    for a in i8::MIN..=i8::MAX {
        for b in i8::MIN..=i8::MAX {
            let (x, y) = (i128::from(a), i128::from(b));
            let gcd = i8::try_from(exact::gcd(x, y)).ok();
            let lcm = exact::lcm(x, y).and_then(|lcm| i8::try_from(lcm).ok());
            check(
                "extended_gcd_lcm",
                (a, b),
                gcd.and_then(|gcd| Some((gcd, lcm?))),
                || {
                    let (pair, lcm) = a.extended_gcd_lcm(&b);
                    (pair.gcd, lcm)
                },
            );
        }
    }
}
