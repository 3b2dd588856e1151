//! Rounded quotients of all pairs of bytes, roots with what is left, logarithms and factorials, against a separate
//! computation in wider types.

use cellarcove::applied::counting::{factorial, falling};
use cellarcove::applied::powers::{self, ilog, sqrt_rem};
use cellarcove::applied::rounding::{self, div_round, div_round_even};
use cellarcove::checked::{self, product_div_round, product_div_round_even};
use std::ops::RangeInclusive;

/// The integers nearest to `n / d`, in increasing order: two if a half is left, and else one.
fn nearest(n: i32, d: i32) -> Vec<i32> {
    let around = n / d - 1..=n / d + 1;
    let distance = |q: &i32| (n - q * d).abs();
    let least = around.clone().map(|q| distance(&q)).min();
    around.filter(|q| Some(distance(q)) == least).collect()
}

/// Of the nearest integers the one that is farthest from zero.
fn away(n: i32, d: i32) -> i32 {
    nearest(n, d).into_iter().max_by_key(|q| q.abs()).unwrap()
}

/// Of the nearest integers the even one, if there are two.
fn even(n: i32, d: i32) -> i32 {
    match nearest(n, d)[..] {
        [one] => one,
        [low, high] => {
            if low % 2 == 0 {
                low
            } else {
                high
            }
        }
        _ => unreachable!("{n} {d}"),
    }
}

macro_rules! all_pairs {
    ($($name:ident $number:ident)*) => {$(
        #[test]
        fn $name() {
            let numbers = || $number::MIN..=$number::MAX;
            for (x, y) in numbers().flat_map(|x| numbers().map(move |y| (x, y))) {
                let fit = |q: i32| $number::try_from(q).ok();
                let (n, d) = (i32::from(x), i32::from(y));
                let wanted = if d == 0 { None } else { fit(away(n, d)) };
                assert_eq!(rounding::checked::div_round(x, y), wanted, "{x} {y}");
                let wanted_even = if d == 0 { None } else { fit(even(n, d)) };
                assert_eq!(rounding::checked::div_round_even(x, y), wanted_even, "{x} {y}");
                if wanted.is_some() {
                    assert_eq!(Some(div_round(x, y)), wanted, "{x} {y}");
                    assert_eq!(Some(div_round_even(x, y)), wanted_even, "{x} {y}");
                }
            }
        }
    )*};
}

all_pairs! { pairs_of_i8 i8 pairs_of_u8 u8 }

/// Every fifth number, the numbers near 0, and the ends of the type with their neighbours.
fn some(least: i32, most: i32) -> Vec<i32> {
    (least..=most)
        .filter(|x| x % 5 == 0 || x.abs() < 4 || x - least < 2 || most - x < 2)
        .collect()
}

macro_rules! products {
    ($($name:ident $number:ident)*) => {$(
        #[test]
        fn $name() {
            let few = some($number::MIN.into(), $number::MAX.into());
            for (a, b) in few.iter().flat_map(|a| few.iter().map(move |b| (*a, *b))) {
                for d in $number::MIN..=$number::MAX {
                    let fit = |q: i32| $number::try_from(q).ok();
                    let (x, y, n) = (a as $number, b as $number, a * b);
                    let wanted = if d == 0 { None } else { fit(away(n, d.into())) };
                    assert_eq!(product_div_round(x, y, d), wanted, "{x} {y} {d}");
                    let wanted = if d == 0 { None } else { fit(even(n, d.into())) };
                    assert_eq!(product_div_round_even(x, y, d), wanted, "{x} {y} {d}");
                }
            }
        }
    )*};
}

products! { products_of_i8 i8 products_of_u8 u8 }

/// Two factors, a divisor, the quotient with a half away from zero, and that with a half to the even number, by the fractions of Python.
type Row<T> = (T, T, T, Option<T>, Option<T>);

#[rustfmt::skip]
const SIGNED: [Row<i64>; 55] = [
    (1999, 19, 100, Some(380), Some(380)),
    (i64::MAX, 19, 100, Some(1752440687002407403), Some(1752440687002407403)),
    (i64::MAX, 3, 2, None, None),
    (i64::MIN, -1, 1, None, None),
    (i64::MIN, -1, -1, Some(i64::MIN), Some(i64::MIN)),
    (i64::MIN, i64::MIN, i64::MIN, Some(i64::MIN), Some(i64::MIN)),
    (i64::MIN, i64::MAX, i64::MIN, Some(i64::MAX), Some(i64::MAX)),
    (i64::MAX, i64::MAX, i64::MIN, Some(-9223372036854775806), Some(-9223372036854775806)),
    (i64::MIN, 3, -6, Some(4611686018427387904), Some(4611686018427387904)),
    (i64::MAX, i64::MAX, 2, None, None),
    (i64::MAX, i64::MAX, 9223372036854775806, None, None),
    (i64::MIN, i64::MAX, i64::MAX, Some(i64::MIN), Some(i64::MIN)),
    (i64::MIN, 9223372036854775806, i64::MAX, Some(-9223372036854775807), Some(-9223372036854775807)),
    (i64::MIN, 5, 4, None, None),
    (i64::MAX, 5, 10, Some(4611686018427387904), Some(4611686018427387904)),
    (i64::MIN, 1, 2, Some(-4611686018427387904), Some(-4611686018427387904)),
    (i64::MAX, 1, 2, Some(4611686018427387904), Some(4611686018427387904)),
    (i64::MAX, 1, -2, Some(-4611686018427387904), Some(-4611686018427387904)),
    (i64::MIN, -4611686018427387905, -4611686018427387904, None, None),
    (-9223372036854775807, 4611686018427387905, i64::MAX, Some(-4611686018427387905), Some(-4611686018427387905)),
    (0, i64::MIN, -1, Some(0), Some(0)),
    (1, 1, 0, None, None),
    (i64::MIN, 9223372036854775805, 9223372036854775806, Some(-9223372036854775807), Some(-9223372036854775807)),
    (4294967297, 4294967297, 8589934592, Some(2147483649), Some(2147483649)),
    (6917529027641081856, 4294967297, 4294967296, Some(6917529029251694592), Some(6917529029251694592)),
    (-4611686018427387904, i64::MAX, 4611686018427387904, Some(-9223372036854775807), Some(-9223372036854775807)),
    (-5534023222112865485, 5, 3, Some(i64::MIN), Some(i64::MIN)),
    (2515465100960393402, 11, 3, Some(i64::MAX), Some(i64::MAX)),
    (-2128470470043409802, 13, 3, None, None),
    (88971434439113593, 311, 3, None, None),
    (-3353953467947191203, 11, 4, Some(i64::MIN), Some(i64::MIN)),
    (784967832923810707, 47, 4, Some(i64::MAX), Some(i64::MAX)),
    (7378697629483820646, 5, 4, None, None),
    (-7378697629483820647, 5, 4, None, None),
    (1190112520884487201, 31, 4, None, None),
    (-1124801467909119001, 41, 5, Some(i64::MIN), Some(i64::MIN)),
    (7686143364045646506, 6, 5, Some(i64::MAX), Some(i64::MAX)),
    (-175349278267201061, 263, 5, None, None),
    (1590236558078409622, 29, 5, None, None),
    (-7905747460161236407, 7, 6, Some(i64::MIN), Some(i64::MIN)),
    (6148914691236517205, 9, 6, None, None),
    (-4256940940086819604, 13, 6, None, None),
    (177942868878227186, 311, 6, None, None),
    (-1136503093840473, 56809, 7, Some(i64::MIN), Some(i64::MIN)),
    (6456360425798343065, 10, 7, Some(i64::MAX), Some(i64::MAX)),
    (-6456360425798343066, 10, 7, None, None),
    (-5675921253449092805, 13, 8, Some(i64::MIN), Some(i64::MIN)),
    (1392207099902607669, 53, 8, Some(i64::MAX), Some(i64::MAX)),
    (7378697629483820646, 10, 8, None, None),
    (-407662852457669649, 181, 8, None, None),
    (1209622562210462401, 61, 8, None, None),
    (6148914691236517205, 3, 2, None, None),
    (6148914691236517205, 3, 2, None, None),
    (-6148914691236517206, 3, 2, None, None),
    (4611686018427387904, 4, 2, None, None),
];

#[rustfmt::skip]
const UNSIGNED: [Row<u64>; 21] = [
    (u64::MAX, u64::MAX, u64::MAX, Some(u64::MAX), Some(u64::MAX)),
    (u64::MAX, u64::MAX, 18446744073709551614, None, None),
    (u64::MAX, 10, 11, Some(16769767339735956014), Some(16769767339735956014)),
    (u64::MAX, 0, 1, Some(0), Some(0)),
    (0, 0, 0, None, None),
    (u64::MAX, 1, 2, Some(9223372036854775808), Some(9223372036854775808)),
    (18446744073709551613, 1, 2, Some(9223372036854775807), Some(9223372036854775806)),
    (u64::MAX, 3, 6, Some(9223372036854775808), Some(9223372036854775808)),
    (u64::MAX, 18446744073709551614, u64::MAX, Some(18446744073709551614), Some(18446744073709551614)),
    (9223372036854775808, 3, 4, Some(6917529027641081856), Some(6917529027641081856)),
    (9223372036854775809, 3, 2, Some(13835058055282163714), Some(13835058055282163714)),
    (1190112520884487201, 31, 2, None, None),
    (1190112520884487201, 31, 2, None, None),
    (177942868878227186, 311, 3, Some(u64::MAX), Some(u64::MAX)),
    (177942868878227186, 311, 3, Some(u64::MAX), Some(u64::MAX)),
    (1209622562210462401, 61, 4, Some(u64::MAX), Some(u64::MAX)),
    (2380225041768974402, 31, 4, None, None),
    (15811494920322472813, 7, 6, Some(u64::MAX), Some(u64::MAX)),
    (3570337562653461603, 31, 6, None, None),
    (4985606506407986923, 37, 10, Some(u64::MAX), Some(u64::MAX)),
    (5950562604422436005, 31, 10, None, None),
];

#[test]
fn products_at_the_ends() {
    for (a, b, d, away, even) in SIGNED {
        assert_eq!(product_div_round(a, b, d), away, "{a} {b} {d}");
        assert_eq!(product_div_round_even(a, b, d), even, "{a} {b} {d}");
    }
    for (a, b, d, away, even) in UNSIGNED {
        assert_eq!(product_div_round(a, b, d), away, "{a} {b} {d}");
        assert_eq!(product_div_round_even(a, b, d), even, "{a} {b} {d}");
    }
}

#[test]
fn quotients_at_the_ends() {
    assert_eq!(div_round(u64::MAX, 2), 1 << 63);
    assert_eq!(div_round_even(u64::MAX, 2), 1 << 63);
    assert_eq!(div_round_even(u64::MAX - 2, 2), (1 << 63) - 2);
    assert_eq!(div_round(i64::MIN, i64::MAX), -1);
    assert_eq!(div_round(i64::MAX, i64::MIN), -1);
    assert_eq!(div_round(u128::MAX, u128::MAX - 1), 1);
    assert_eq!(div_round(i128::MIN, 2), i128::MIN / 2);
    assert_eq!(div_round((1i128 << 126) + 1, i128::MAX), 1);
    assert_eq!(div_round((1i128 << 126) - 1, i128::MAX), 0);
    assert_eq!(rounding::checked::div_round(i64::MIN, -1), None);
    assert_eq!(rounding::checked::div_round_even(i128::MIN, -1), None);
    assert_eq!(rounding::checked::div_round_even(7u128, 0), None);
}

#[test]
fn squares_and_what_is_left() {
    let few = 0..=70_000u64;
    let ends = [
        u64::MAX,
        u64::MAX - 1,
        (u64::from(u32::MAX)).pow(2),
        (u64::from(u32::MAX)).pow(2) - 1,
    ];
    for n in few.chain(ends) {
        let (root, rest) = sqrt_rem(n);
        assert_eq!(root * root + rest, n, "{n}");
        assert!(rest <= 2 * root, "{n}");
        assert_eq!(powers::checked::sqrt_rem(n), Some((root, rest)), "{n}");
    }
    assert_eq!(sqrt_rem(99), (9, 18));
    assert_eq!(sqrt_rem(i8::MAX), (11, 6));
    assert_eq!(powers::checked::sqrt_rem(-1i64), None);
    assert_eq!(powers::checked::sqrt_rem(i8::MIN), None);
}

/// The degree of the last power of the base that is at most the number.
fn degree(number: i128, base: i128) -> u32 {
    (0..).find(|degree| base.pow(degree + 1) > number).unwrap()
}

#[test]
fn logarithms() {
    let bases = |high: i128| {
        (2..=40)
            .chain([high - 1, high])
            .filter(move |base| *base <= high)
    };
    for (number, base) in (1..=255).flat_map(|number| bases(255).map(move |base| (number, base))) {
        let wanted = degree(number, base);
        assert_eq!(ilog(number as u8, base as u8), wanted, "{number} {base}");
        assert_eq!(
            checked::ilog(number, base),
            Some(wanted),
            "{number} {base}"
        );
    }
    for number in i8::MIN..=i8::MAX {
        for base in i8::MIN..=i8::MAX {
            let wanted = (number >= 1 && base >= 2).then(|| degree(number.into(), base.into()));
            assert_eq!(
                checked::ilog(number, base),
                wanted,
                "{number} {base}"
            );
        }
    }
    assert_eq!(ilog(u64::MAX, 2), 63);
    assert_eq!(ilog(u128::MAX, 2), 127);
    assert_eq!(ilog(10u64.pow(19), 10), 19);
    assert_eq!(ilog(10u64.pow(19) - 1, 10), 18);
    assert_eq!(ilog(i64::MAX, i64::MAX), 1);
    assert_eq!(ilog(i64::MAX - 1, i64::MAX), 0);
}

/// The product of the numbers of the range, or `None` if it does not fit in 128 bits.
fn product(numbers: RangeInclusive<u128>) -> Option<u128> {
    numbers
        .into_iter()
        .try_fold(1u128, |product, number| product.checked_mul(number))
}

#[test]
fn factorials() {
    for n in 0..=200u8 {
        let wanted = product(1..=n.into());
        let fit = wanted.and_then(|f| u64::try_from(f).ok());
        assert_eq!(checked::factorial(u64::from(n)), fit, "{n}");
        assert_eq!(checked::factorial(u128::from(n)), wanted, "{n}");
        assert_eq!(
            checked::factorial(n),
            wanted.and_then(|f| u8::try_from(f).ok()),
            "{n}"
        );
        if let Some(fit) = fit {
            assert_eq!(factorial(u64::from(n)), fit, "{n}");
        }
    }
    assert_eq!(checked::factorial(u64::MAX), None);
    assert_eq!(checked::factorial(-1), None);
    assert_eq!(factorial(20i64), 2432902008176640000);
    assert_eq!(factorial(34u128), 295232799039604140847618609643520000000);
}

#[test]
fn falling_factorials() {
    for (n, k) in (0..=40u128).flat_map(|n| (0..=45).map(move |k| (n, k))) {
        let wanted = if k > n {
            Some(0)
        } else {
            product(n - k + 1..=n)
        };
        let fit = wanted.and_then(|f| u64::try_from(f).ok());
        assert_eq!(
            checked::falling(n as u64, k as u64),
            fit,
            "{n} {k}"
        );
        if let Some(fit) = fit {
            assert_eq!(falling(n as u64, k as u64), fit, "{n} {k}");
        }
    }
    for (n, k) in (i8::MIN..=i8::MAX).flat_map(|n| (i8::MIN..=i8::MAX).map(move |k| (n, k))) {
        let natural = u128::try_from(n).ok().zip(u128::try_from(k).ok());
        let wanted = natural.and_then(|(n, k)| {
            if k > n {
                Some(0)
            } else {
                product(n - k + 1..=n)
            }
        });
        let fit = wanted.and_then(|f| i8::try_from(f).ok());
        assert_eq!(checked::falling(n, k), fit, "{n} {k}");
    }
    assert_eq!(falling(u64::MAX, 1), u64::MAX);
    assert_eq!(falling(u64::MAX, 0), 1);
    assert_eq!(checked::falling(u64::MAX, u64::MAX - 1), None);
    assert_eq!(checked::falling(u64::MAX, 2), None);
}
