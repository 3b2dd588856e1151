//! All pairs of bytes, and the roots of all numbers of 8 and of 16 bits, against computation in 32 bits by the
//! definitions.

use cellarcove::counted::GcdCounted;
use cellarcove::{checked, Average, Fits, Integer, Roots};

/// The quotient rounded down.
fn floored(n: i32, d: i32) -> Option<i32> {
    let quotient = n.checked_div(d)?;
    let is_above = n % d != 0 && (n < 0) != (d < 0);
    Some(quotient - i32::from(is_above))
}

/// The largest number that divides both, by trial. It is 0 if both are 0.
fn common_divisor(a: i32, b: i32) -> i32 {
    let largest = a.abs().max(b.abs());
    (1..=largest)
        .rev()
        .find(|k| a % k == 0 && b % k == 0)
        .unwrap_or(0)
}

/// The iterations of Stein's loop, counted without the order of the two numbers.
fn stein_iterations(a: i32, b: i32) -> u32 {
    let odd = |n: i32| n >> n.trailing_zeros();
    if a == 0 || b == 0 {
        return 0;
    }
    let (mut m, mut n) = (odd(a.abs()), odd(b.abs()));
    let mut iterations = 0;
    while m != n {
        (m, n) = (odd((m - n).abs()), m.min(n));
        iterations += 1;
    }
    iterations
}

macro_rules! all_pairs {
    ($($name:ident $number:ident)*) => {$(
        mod $name {
            use super::*;

            /// The number as a byte, if it fits.
            fn byte(z: i32) -> Option<$number> {
                $number::try_from(z).ok()
            }

            fn both(first: Option<i32>, second: Option<i32>) -> Option<($number, $number)> {
                byte(first?).zip(byte(second?))
            }

            /// Each pair of bytes, with its numbers.
            fn pairs() -> impl Iterator<Item = ($number, $number, i32, i32)> {
                let bytes = || $number::MIN..=$number::MAX;
                bytes().flat_map(move |x| bytes().map(move |y| (x, y, x.into(), y.into())))
            }

            #[test]
            fn quotients_and_multiples() {
                for (x, y, n, d) in pairs() {
                    let (floor, ceil) = (floored(n, d), floored(-n, d).map(|q| -q));
                    let rest = floor.map(|q| n - q * d);
                    let fitting = |z: Option<i32>| z.and_then(byte);
                    assert_eq!(checked::div_floor(x, y), fitting(floor), "{x} {y}");
                    assert_eq!(checked::div_ceil(x, y), fitting(ceil), "{x} {y}");
                    assert_eq!(checked::mod_floor(x, y), fitting(rest), "{x} {y}");
                    assert_eq!(checked::div_mod_floor(x, y), both(floor, rest), "{x} {y}");
                    let truncated = both(n.checked_div(d), n.checked_rem(d));
                    assert_eq!(checked::div_rem(x, y), truncated, "{x} {y}");
                    let multiple = |q: Option<i32>| q.and_then(|q| byte(q * d));
                    assert_eq!(checked::next_multiple_of(x, y), multiple(ceil), "{x} {y}");
                    assert_eq!(checked::prev_multiple_of(x, y), multiple(floor), "{x} {y}");
                    let is_multiple = n.checked_rem(d).unwrap_or(n) == 0;
                    assert_eq!(Integer::is_multiple_of(&x, &y), is_multiple, "{x} {y}");
                }
            }

            #[test]
            fn domains_of_quotients() {
                for (x, y, n, d) in pairs() {
                    let (floor, ceil) = (floored(n, d), floored(-n, d).map(|q| -q));
                    let fits = |z: Option<i32>| z.and_then(byte).is_some();
                    assert_eq!(x.quotient_fits(&y), fits(floor) && fits(ceil), "{x} {y}");
                    assert_eq!(x.next_multiple_fits(&y), fits(ceil.map(|q| q * d)), "{x} {y}");
                    assert_eq!(x.prev_multiple_fits(&y), fits(floor.map(|q| q * d)), "{x} {y}");
                }
            }

            #[test]
            fn divisors() {
                for (x, y, a, b) in pairs() {
                    let divisor = common_divisor(a, b);
                    let multiple = (a * b).abs().checked_div(divisor).unwrap_or(0);
                    assert_eq!(checked::gcd(x, y), byte(divisor), "{x} {y}");
                    assert_eq!(checked::lcm(x, y), byte(multiple), "{x} {y}");
                    let expected = both(Some(divisor), Some(multiple));
                    assert_eq!(checked::gcd_lcm(x, y), expected, "{x} {y}");
                    assert_eq!(x.gcd_fits(&y), byte(divisor).is_some(), "{x} {y}");
                    assert_eq!(x.lcm_fits(&y), byte(multiple).is_some(), "{x} {y}");
                    // With -128 the divisor is found without the loop.
                    if a > -128 && b > -128 {
                        let counted = x.gcd_counted(&y);
                        let expected = (divisor, stein_iterations(a, b));
                        assert_eq!((counted.0.into(), counted.1), expected, "{x} {y}");
                    }
                    if let Some(pair) = checked::extended_gcd(x, y) {
                        let combined = a * i32::from(pair.x) + b * i32::from(pair.y);
                        assert_eq!((combined, pair.gcd.into()), (divisor, divisor), "{x} {y}");
                    }
                }
            }

            #[test]
            fn sums_products_and_averages() {
                for (x, y, a, b) in pairs() {
                    assert_eq!(checked::sum(x, y), byte(a + b), "{x} {y}");
                    assert_eq!(checked::difference(x, y), byte(a - b), "{x} {y}");
                    assert_eq!(checked::product(x, y), byte(a * b), "{x} {y}");
                    let averages = (x.average_floor(&y), x.average_ceil(&y));
                    let expected = ((a + b).div_euclid(2), (a + b + 1).div_euclid(2));
                    let found = (averages.0.into(), averages.1.into());
                    assert_eq!(expected, found, "{x} {y}");
                }
            }

            #[test]
            fn products_over_a_divisor() {
                let divisors = [0, 1, -1, 2, -2, 3, -7, 100, 127, -127, -128, 255];
                for d in divisors.into_iter().filter_map(byte) {
                    for (x, y, a, b) in pairs() {
                        let quotient = floored(a * b, d.into());
                        let rest = quotient.map(|q| a * b - q * i32::from(d));
                        let found = checked::product_div_mod_floor(x, y, d);
                        assert_eq!(found, both(quotient, rest), "{x} {y} {d}");
                    }
                }
            }

            #[test]
            fn coefficients() {
                let mut row = vec![1i32];
                for n in 0..=$number::MAX {
                    for k in 0..=n {
                        let coefficient = row[k as usize];
                        assert_eq!(checked::binomial(n, k), byte(coefficient), "{n} {k}");
                    }
                    // Pascal's rule. What is beyond a byte stays there.
                    let inner = row.windows(2).map(|two| (two[0] + two[1]).min(1 << 20));
                    row = std::iter::once(1).chain(inner).chain([1]).collect();
                }
            }
        }
    )*};
}

all_pairs! { signed i8 unsigned u8 }

/// The coefficients of `extended_gcd_lcm` give the divisor.
#[test]
fn pairs_with_a_multiple() {
    for a in -128..=127 {
        for b in -128..=127 {
            let found = checked::extended_gcd_lcm(a, b).map(|(pair, lcm)| {
                assert_eq!(a * pair.x + b * pair.y, pair.gcd, "{a} {b}");
                (pair.gcd, lcm)
            });
            let divisor = common_divisor(a, b);
            let multiple = (a * b).abs().checked_div(divisor).unwrap_or(0);
            assert_eq!(found, Some((divisor, multiple)), "{a} {b}");
        }
    }
}

/// The roots of each number up to a largest one. Each is at most one more than the root before.
macro_rules! all_roots {
    ($($name:ident $number:ident)*) => {$(
        #[test]
        fn $name() {
            for degree in [1, 2, 3, 4, 7, 8, 16] {
                let mut root: $number = 0;
                for x in 0..=$number::MAX {
                    let next = u64::from(root) + 1;
                    if next.pow(degree) <= u64::from(x) {
                        root += 1;
                    }
                    assert_eq!(x.nth_root(degree), root, "{x} {degree}");
                    match degree {
                        2 => assert_eq!(x.sqrt(), root, "{x}"),
                        3 => assert_eq!(x.cbrt(), root, "{x}"),
                        _ => {}
                    }
                }
            }
        }
    )*};
}

all_roots! { roots_of_8_bits u8 roots_of_16_bits u16 }

/// Roots beside powers of numbers around powers of two.
#[test]
fn roots_beside_powers() {
    let bases = (1..32).flat_map(|place| [(1 << place) - 1, 1 << place, (1 << place) + 1]);
    for base in bases {
        for degree in 3..=10u32 {
            let Some(power) = u64::checked_pow(base, degree) else {
                continue;
            };
            let found = (power - 1).nth_root(degree);
            assert_eq!((found, power.nth_root(degree)), (base - 1, base));
            if let Some(above) = power.checked_add(1) {
                assert_eq!(above.nth_root(degree), base);
            }
        }
    }
}
