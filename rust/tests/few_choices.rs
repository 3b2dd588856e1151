//! Choices out of less than eight, pages and parts of few items, places in short lists, and powers, against lists of all.

use cellarcove::applied::halving::{lower_bound, midpoint};
use cellarcove::applied::layout::{align_up, padding};
use cellarcove::applied::paging::{pages, place_of, range_of_page, range_of_part};
use cellarcove::applied::powers::{is_perfect_power, is_power, is_square};
use cellarcove::applied::ranking::{choice_of_rank, next_choice, rank};
use cellarcove::counted::binomial_counted;

/// The choices of `k` numbers below `n`: the places of the ones of a number, in increasing order of these.
fn choices(n: u64, k: u32) -> Vec<Vec<u64>> {
    (0..1u64 << n)
        .filter(|mask| mask.count_ones() == k)
        .map(|mask| (0..n).filter(|place| mask >> place & 1 == 1).collect())
        .collect()
}

#[test]
fn ranks() {
    for (n, k) in (0..8).flat_map(|n| (0..=n as u32).map(move |k| (n, k))) {
        for (place, numbers) in choices(n, k).iter().enumerate() {
            let mut choice = vec![0; k as usize];
            choice_of_rank(place as u64, n, &mut choice);
            assert_eq!(&choice, numbers, "{n}");
            assert_eq!(rank(numbers, n), place as u64, "{n} {numbers:?}");
        }
    }
}

#[test]
fn next_choices() {
    for (n, k) in (0..8).flat_map(|n| (0..=n as u32).map(move |k| (n, k))) {
        let all = choices(n, k);
        let mut choice = all[0].clone();
        for numbers in &all[1..] {
            assert!(next_choice(&mut choice, n), "{n} {numbers:?}");
            assert_eq!(&choice, numbers, "{n}");
        }
        assert!(!next_choice(&mut choice, n), "{n}");
        assert_eq!(all.last(), Some(&choice), "{n}");
    }
}

/// The coefficients by the sums of Pascal's triangle, and the iterations: the smaller of `k` and `n - k`.
#[test]
fn rows_of_pascal() {
    let mut row = vec![1u64];
    for n in 0..=60u64 {
        for (k, coefficient) in (0..).zip(&row) {
            let iterations = k.min(n - k) as u32;
            assert_eq!(
                binomial_counted(n, k),
                (*coefficient, iterations),
                "{n} {k}"
            );
        }
        assert_eq!(binomial_counted(n, n + 1), (0, 0), "{n}");
        let next = row.windows(2).map(|pair| pair[0] + pair[1]);
        row = [1].into_iter().chain(next).chain([1]).collect();
    }
}

/// The first of the items that lie on a page, and one past the last.
fn on_page(items: i8, page_size: i8, page: i8) -> (i8, i8) {
    let mut on = (0..items).filter(|item| item / page_size == page);
    match on.next() {
        Some(first) => (first, on.next_back().unwrap_or(first) + 1),
        None => (items, items),
    }
}

#[test]
fn pages_of_few_items() {
    for (items, page_size) in (0..=20).flat_map(|items| (1..=22).map(move |size| (items, size))) {
        let fewest = (0..).find(|count| count * page_size >= items);
        assert_eq!(Some(pages(items, page_size)), fewest, "{items} {page_size}");
        for page in -2..22 {
            let expected = on_page(items, page_size, page);
            assert_eq!(
                range_of_page(page, page_size, items),
                expected,
                "{items} {page_size}"
            );
        }
    }
}

/// The items are dealt one by one to the parts in turn.
#[test]
fn parts_of_few_items() {
    for (items, parts) in (0..=20u8).flat_map(|items| (1..=22u8).map(move |parts| (items, parts))) {
        let mut end = 0;
        for part in 0..parts {
            let first = end;
            end += (0..items).filter(|item| item % parts == part).count() as u8;
            assert_eq!(
                range_of_part(part, parts, items),
                (first, end),
                "{items} {parts}"
            );
        }
        assert_eq!(end, items);
    }
}

#[test]
fn offsets_and_middles() {
    for (x, n) in (i8::MIN..=i8::MAX).flat_map(|x| (1..=i8::MAX).map(move |n| (x, n))) {
        let (a, m) = (i32::from(x), i32::from(n));
        let aligned = (a..a + m)
            .find(|z| z % m == 0)
            .and_then(|z| i8::try_from(z).ok());
        assert_eq!(align_up(x, n), aligned, "{x} {n}");
        let added = (0..m).find(|z| (a + z) % m == 0);
        assert_eq!(Some(i32::from(padding(x, n))), added, "{x} {n}");
        let (page, place) = (a.div_euclid(m) as i8, a.rem_euclid(m) as i8);
        assert_eq!(place_of(x, n), (page, place), "{x} {n}");
        assert_eq!(i32::from(midpoint(x, n)), (a + m).div_euclid(2), "{x} {n}");
    }
}

#[test]
fn places_in_short_lists() {
    for mask in 0..1u32 << 8 {
        let items: Vec<u8> = (0..8).filter(|place| mask >> place & 1 == 1).collect();
        for least in 0..=8 {
            let expected = items.iter().filter(|item| **item < least).count();
            assert_eq!(lower_bound(&items, least), expected, "{items:?} {least}");
        }
    }
}

#[test]
fn powers() {
    for n in 0..=2048i16 {
        let (wide, up_to) = (u64::from(n.unsigned_abs()), 0..=46u64);
        let is_of = |degree: u32| up_to.clone().any(|x| x.checked_pow(degree) == Some(wide));
        assert_eq!(is_square(n), is_of(2), "{n}");
        for degree in 2..=12 {
            assert_eq!(is_power(n, degree), is_of(degree), "{n} {degree}");
        }
        assert_eq!(is_perfect_power(wide), (2..=12).any(is_of), "{n}");
    }
}
