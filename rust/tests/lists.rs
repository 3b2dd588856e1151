//! Divisors, multiples and sums of short lists, coprime numbers and reduced pairs, against lists of all divisors and multiples.

use cellarcove::applied::coprime::{is_coprime, reduced};
use cellarcove::applied::lists::{gcd_of, lcm_of};
use cellarcove::checked;

/// The numbers of all signed bytes, in 32 bits.
fn bytes() -> impl Iterator<Item = i32> + Clone {
    i32::from(i8::MIN)..=i32::from(i8::MAX)
}

/// The largest number that divides each of the numbers, or 0 if all are 0. It is at most 128.
fn largest_divisor(numbers: &[i32]) -> i32 {
    let divides = |d: &i32| numbers.iter().all(|number| number % d == 0);
    if numbers.iter().all(|number| *number == 0) {
        0
    } else {
        (1..=128).rev().find(divides).expect("1 divides each")
    }
}

/// The smallest positive number that each of the numbers divides, or 0 if one is 0, if it is below 128.
fn smallest_multiple(numbers: &[i32]) -> Option<i32> {
    if numbers.contains(&0) {
        return Some(0);
    }
    (1..128).find(|m| numbers.iter().all(|number| m % number == 0))
}

fn check(numbers: &[i32]) {
    let list: Vec<i8> = numbers.iter().map(|number| *number as i8).collect();
    let gcd = i8::try_from(largest_divisor(numbers)).ok();
    let lcm = smallest_multiple(numbers).map(|multiple| multiple as i8);
    assert_eq!(checked::gcd_of(&list), gcd, "{list:?}");
    assert_eq!(checked::lcm_of(&list), lcm, "{list:?}");
    if let Some(gcd) = gcd {
        assert_eq!(gcd_of(&list), gcd, "{list:?}");
    }
    if let Some(lcm) = lcm {
        assert_eq!(lcm_of(&list), lcm, "{list:?}");
    }
}

#[test]
fn lists_of_at_most_two_bytes() {
    check(&[]);
    for a in bytes() {
        check(&[a]);
        for b in bytes() {
            check(&[a, b]);
        }
    }
}

/// Every fifth number, the numbers near 0, and the ends of the type with their neighbours.
#[test]
fn lists_of_three_bytes() {
    let some: Vec<i32> = bytes()
        .filter(|number| number % 5 == 0 || number.abs() > 125 || number.abs() < 7)
        .collect();
    for a in &some {
        for b in &some {
            for c in &some {
                check(&[*a, *b, *c]);
            }
        }
    }
}

#[test]
fn pairs_of_bytes() {
    for a in bytes() {
        for b in bytes() {
            let divisor = largest_divisor(&[a, b]);
            let parts = (a / divisor.max(1), b / divisor.max(1));
            assert_eq!(
                reduced(a as i8, b as i8),
                (parts.0 as i8, parts.1 as i8),
                "{a} {b}"
            );
            assert_eq!(is_coprime(a as i8, b as i8), divisor == 1, "{a} {b}");
        }
    }
}

/// At the ends of each type. What fits at the end may not fit on the way.
#[test]
fn ends_of_types() {
    assert_eq!(checked::gcd_of(&[i64::MIN, 0, 6]), Some(2));
    assert_eq!(checked::gcd_of(&[0, i64::MIN]), None);
    assert_eq!(checked::gcd_of(&[i64::MIN, i64::MIN]), None);
    assert_eq!(checked::gcd_of(&[i64::MIN, i64::MAX]), Some(1));
    assert_eq!(checked::gcd_of(&[i128::MIN, 0, 1 << 100]), Some(1 << 100));
    assert_eq!(checked::gcd_of(&[u128::MAX, 0]), Some(u128::MAX));
    assert_eq!(checked::gcd_of(&[0u64, 0]), Some(0));
    assert_eq!(checked::gcd_of::<u64>(&[]), Some(0));
    assert_eq!(checked::lcm_of(&[u64::MAX, u64::MAX - 1]), None);
    assert_eq!(checked::lcm_of(&[u64::MAX, u64::MAX - 1, 0]), Some(0));
    assert_eq!(checked::lcm_of(&[i64::MIN]), None);
    assert_eq!(checked::lcm_of(&[i64::MIN + 1]), Some(i64::MAX));
    assert_eq!(checked::lcm_of(&[1u128 << 127, 2]), Some(1 << 127));
    assert_eq!(checked::lcm_of::<i8>(&[]), Some(1));
    assert_eq!(reduced(i64::MIN, 0), (-1, 0));
    assert_eq!(reduced(i64::MIN, i64::MIN), (-1, -1));
    assert_eq!(reduced(i128::MIN, i128::MAX), (i128::MIN, i128::MAX));
    assert_eq!(reduced(u128::MAX, u128::MAX), (1, 1));
    assert!(!is_coprime(i64::MIN, 0));
    assert!(is_coprime(i64::MIN, i64::MAX));
    assert!(is_coprime(u128::MAX, u128::MAX - 1));
}

/// The sums of all lists of a few bytes, against those in 32 bits.
#[test]
fn sums_of_three_bytes() {
    let some: Vec<i32> = bytes()
        .filter(|number| number % 9 == 0 || number.abs() > 126 || number.abs() < 3)
        .collect();
    for (a, b) in some.iter().flat_map(|a| some.iter().map(move |b| (*a, *b))) {
        for c in &some {
            let list = [a as i8, b as i8, *c as i8];
            let sum = i8::try_from(a + b + c).ok();
            assert_eq!(checked::sum_of(&list), sum, "{list:?}");
            let pairs = [(list[0], list[1]), (list[2], list[0]), (list[1], 1)];
            let product = i8::try_from(a * b + c * a + b).ok();
            assert_eq!(checked::dot_product(&pairs), product, "{pairs:?}");
        }
    }
}

/// Numbers and their sum, by the integers of Python.
type Sums<T> = &'static [(&'static [T], Option<T>)];

#[rustfmt::skip]
#[test]
fn sums_at_the_ends() {
    let signed: Sums<i64> = &[
        (&[i64::MAX, i64::MAX, i64::MIN, i64::MIN], Some(-2)),
        (&[i64::MAX, 1], None),
        (&[i64::MIN, -1], None),
        (&[i64::MIN, -1, 1], Some(i64::MIN)),
        (&[i64::MAX, 1, -1], Some(i64::MAX)),
        (&[i64::MAX, i64::MAX, i64::MAX, i64::MAX, i64::MAX, i64::MAX, i64::MAX, i64::MAX, i64::MAX, i64::MIN, i64::MIN, i64::MIN, i64::MIN, i64::MIN, i64::MIN, i64::MIN, i64::MIN, i64::MIN], Some(-9)),
        (&[i64::MAX, i64::MAX, i64::MAX, i64::MAX, i64::MAX, i64::MAX, i64::MAX, i64::MAX, i64::MAX, i64::MIN, i64::MIN, i64::MIN, i64::MIN, i64::MIN, i64::MIN, i64::MIN, i64::MIN], Some(9223372036854775799)),
        (&[], Some(0)),
        (&[0], Some(0)),
        (&[i64::MIN, i64::MAX], Some(-1)),
        (&[i64::MIN, i64::MIN, i64::MAX, i64::MAX, 2], Some(0)),
        (&[i64::MIN, i64::MIN, i64::MAX, i64::MAX, 1], Some(-1)),
    ];
    let unsigned: Sums<u64> = &[
        (&[u64::MAX], Some(u64::MAX)),
        (&[u64::MAX, 0], Some(u64::MAX)),
        (&[u64::MAX, 1], None),
        (&[1, u64::MAX], None),
        (&[9223372036854775808, 9223372036854775807], Some(u64::MAX)),
        (&[9223372036854775808, 9223372036854775808], None),
        (&[], Some(0)),
    ];
    for (numbers, sum) in signed {
        assert_eq!(checked::sum_of(numbers), *sum, "{numbers:?}");
    }
    for (numbers, sum) in unsigned {
        assert_eq!(checked::sum_of(numbers), *sum, "{numbers:?}");
    }
}

/// Pairs and the sum of their products, by the integers of Python.
type Products<T> = &'static [(&'static [(T, T)], Option<T>)];

#[rustfmt::skip]
#[test]
fn sums_of_products_at_the_ends() {
    let signed: Products<i64> = &[
        (&[(2, 1999), (1, 501)], Some(4499)),
        (&[(i64::MAX, i64::MAX), (-9223372036854775807, i64::MAX)], Some(0)),
        (&[(i64::MIN, i64::MIN), (i64::MIN, i64::MIN), (i64::MIN, i64::MIN), (i64::MIN, i64::MIN), (i64::MIN, i64::MAX), (i64::MIN, i64::MAX), (i64::MIN, i64::MAX), (i64::MIN, i64::MAX), (i64::MIN, 4)], Some(0)),
        (&[(i64::MIN, i64::MIN), (i64::MIN, i64::MIN), (i64::MIN, i64::MIN), (i64::MIN, i64::MIN), (i64::MIN, i64::MIN), (i64::MIN, i64::MAX), (i64::MIN, i64::MAX), (i64::MIN, i64::MAX), (i64::MIN, i64::MAX), (i64::MIN, i64::MAX), (i64::MIN, 5), (7, 1)], Some(7)),
        (&[(i64::MIN, i64::MIN), (i64::MIN, i64::MIN), (i64::MIN, i64::MIN), (i64::MIN, i64::MIN)], None),
        (&[(i64::MIN, i64::MAX), (i64::MIN, i64::MAX), (i64::MIN, i64::MAX), (i64::MIN, i64::MAX), (i64::MIN, 4), (1, -1)], None),
        (&[(i64::MIN, i64::MAX), (i64::MIN, i64::MAX), (i64::MIN, i64::MAX), (i64::MIN, i64::MAX), (i64::MIN, 4)], None),
        (&[(i64::MIN, i64::MIN), (i64::MIN, i64::MIN), (i64::MIN, i64::MIN), (i64::MIN, i64::MIN), (3, 1)], None),
        // 5 less than 2^128, and as far from 0 on the other side
        (&[(i64::MIN, i64::MIN), (i64::MIN, i64::MIN), (i64::MIN, i64::MIN), (i64::MIN, i64::MIN), (5, -1)], None),
        (&[(i64::MIN, i64::MAX), (i64::MIN, i64::MAX), (i64::MIN, i64::MAX), (i64::MIN, i64::MAX), (i64::MIN, 4), (5, 1)], None),
        (&[(i64::MIN, 1)], Some(i64::MIN)),
        (&[(i64::MIN, -1)], None),
        (&[(i64::MAX, 1), (1, 1)], None),
        (&[(i64::MAX, 1), (1, 1), (-1, 1)], Some(i64::MAX)),
        (&[], Some(0)),
        (&[(i64::MIN, i64::MIN), (i64::MIN, i64::MAX), (i64::MIN, 1), (i64::MIN, 1)], Some(i64::MIN)),
        (&[(i64::MAX, i64::MAX), (i64::MAX, i64::MAX), (i64::MIN, i64::MAX), (i64::MIN, i64::MAX), (i64::MAX, 1), (i64::MAX, 1), (5, 1)], Some(5)),
        (&[(i64::MAX, i64::MAX), (i64::MIN, i64::MAX), (i64::MAX, 1), (-3, 3)], Some(-9)),
    ];
    let unsigned: Products<u64> = &[
        (&[(u64::MAX, 1)], Some(u64::MAX)),
        (&[(u64::MAX, 1), (1, 1)], None),
        (&[(u64::MAX, u64::MAX), (u64::MAX, 2), (1, 6)], None),
        (&[(u64::MAX, u64::MAX), (u64::MAX, 2), (1, 1)], None),
        (&[(u64::MAX, u64::MAX), (u64::MAX, u64::MAX), (u64::MAX, u64::MAX)], None),
        (&[(4294967296, 2147483648), (4294967295, 2147483648)], Some(18446744071562067968)),
        (&[], Some(0)),
        (&[(u64::MAX, 0), (3, 7)], Some(21)),
    ];
    for (pairs, sum) in signed {
        assert_eq!(checked::dot_product(pairs), *sum, "{pairs:?}");
    }
    for (pairs, sum) in unsigned {
        assert_eq!(checked::dot_product(pairs), *sum, "{pairs:?}");
    }
}

/// The sum of a million of the largest numbers does not fit, and with as many of the smallest it does.
#[test]
fn sums_of_long_lists() {
    let most = vec![i64::MAX; 1 << 20];
    let least = vec![i64::MIN; 1 << 20];
    assert_eq!(checked::sum_of(&most), None);
    assert_eq!(checked::sum_of(&[most, least].concat()), Some(-(1 << 20)));
    let squares = vec![(u64::MAX, u64::MAX); 1 << 20];
    assert_eq!(checked::dot_product(&squares), None);
}
