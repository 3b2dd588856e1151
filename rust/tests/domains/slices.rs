//! Slices, dates, fractions and other calls of few arguments.

use crate::{check, exact, outcome};
use cellarcove::applied::ranking::{choice_of_rank, next_choice, rank};
use cellarcove::applied::rolling_hash::RollingHash;
use cellarcove::calendar::days_in_month;
use cellarcove::ratio64::Ratio;

/// The choices of `length` of the numbers below `n`, in the order of their ranks.
fn choices(n: u64, length: usize) -> Vec<Vec<u64>> {
    let mut choices = vec![vec![]];
    for _ in 0..length {
        let longer = |choice: &Vec<u64>| {
            let least = choice.last().map_or(0, |last| last + 1);
            let choice = choice.clone();
            (least..n).map(move |number| [choice.as_slice(), &[number]].concat())
        };
        choices = choices.iter().flat_map(longer).collect();
    }
    choices.sort_by_key(|choice| choice.iter().rev().copied().collect::<Vec<_>>());
    choices
}

/// Every slice of so many numbers below `bound`.
fn slices(bound: u64, length: u32) -> impl Iterator<Item = Vec<u64>> {
    (0..bound.pow(length)).map(move |code| {
        (0..length)
            .map(|place| code / bound.pow(place) % bound)
            .collect()
    })
}

#[test]
fn ranks_of_choices() {
    for n in 0..6 {
        for length in 0..5 {
            let choices = choices(n, length as usize);
            for slice in slices(7, length) {
                let place = choices.iter().position(|choice| *choice == slice);
                check("rank", (&slice, n), place.map(|place| place as u64), || {
                    rank(&slice, n)
                });
                let mut next = slice.clone();
                let later = place.map(|place| choices.get(place + 1));
                check(
                    "next_choice",
                    (&slice, n),
                    later.map(|later| later.is_some()),
                    || next_choice(&mut next, n),
                );
                assert_eq!(&next, later.flatten().unwrap_or(&slice));
            }
        }
    }
}

#[test]
fn choices_of_ranks() {
    for n in 0..7 {
        for length in 0..5 {
            let choices = choices(n, length);
            for rank in 0..40 {
                let before = vec![77; length];
                let mut slice = before.clone();
                let choice = choices.get(rank as usize);
                check(
                    "choice_of_rank",
                    (rank, n, length),
                    choice.map(|_| ()),
                    || choice_of_rank(rank, n, &mut slice),
                );
                assert_eq!(&slice, choice.unwrap_or(&before));
            }
        }
    }
}

#[test]
fn great_choices() {
    let most = u64::MAX;
    // There are 2^64 - 1 choices of one of so many numbers, and more than 2^64 of two.
    let mut one = [0];
    check("choice_of_rank", most, Some(()), || {
        choice_of_rank(most - 1, most, &mut one)
    });
    assert_eq!(one, [most - 1]);
    check("choice_of_rank", most, None, || {
        choice_of_rank(most, most, &mut one)
    });
    let mut two = [0, 0];
    check("choice_of_rank", most, Some(()), || {
        choice_of_rank(most, most, &mut two)
    });
    check("rank", two, Some(most), || rank(&two, 1 << 33));
    check("rank", most, None, || rank(&[most - 2, most - 1], most));
    check("rank", most, None, || {
        rank(&[6074000999, 6074001000, 6074001001], 6074001002)
    });
}

#[test]
fn months() {
    for year in [-400, -1, 0, 1900, 2000, 2023, 2024, i64::MAX, i64::MIN] {
        let leap = year % 4 == 0 && (year % 100 != 0 || year % 400 == 0);
        let days = [
            31,
            28 + u8::from(leap),
            31,
            30,
            31,
            30,
            31,
            31,
            30,
            31,
            30,
            31,
        ];
        for month in 0..=u8::MAX {
            let answer = usize::from(month)
                .checked_sub(1)
                .and_then(|place| days.get(place))
                .copied();
            check("days_in_month", (year, month), answer, || {
                days_in_month(year, month)
            });
        }
    }
}

#[test]
fn limits() {
    for (num, den) in [
        (0, 1),
        (22, 7),
        (-1, 3),
        (i64::MAX, i64::MAX - 1),
        (i64::MIN, 1),
    ] {
        let ratio = Ratio::new(num, den).expect("the fraction is one");
        for max in [i64::MIN, -5, -1, 0, 1, 2, 3, 7, 1000, i64::MAX] {
            let call = outcome(|| ratio.limit_denominator(max).den());
            assert_eq!(
                call.as_ref().is_ok_and(|den| (1..=max).contains(den)),
                max > 0,
                "{num}/{den} and {max}: {call:?}"
            );
        }
    }
}

#[test]
fn multiples_of_parts() {
    for (num, den) in [(0, 1), (5, 3), (-5, 3), (7, 2), (-7, 2), (9, 4)] {
        let ratio = Ratio::new(num, den).expect("the fraction is one");
        for parts in [i64::MIN, -100, -1, 0, 1, 2, 3, 4, 5, 60, 1000] {
            let (product, divisor) = (i128::from(num) * i128::from(parts), i128::from(den));
            let below = exact::floor(product, divisor);
            let above = exact::ceil(product, divisor);
            let halves = exact::floor(2 * product.abs() + divisor, 2 * divisor);
            let answer = |multiple: i128| {
                let multiple = i64::try_from(multiple).ok().filter(|_| parts > 0)?;
                Some(Ratio::new(multiple, parts))
            };
            let args = (num, den, parts);
            check("floor_to", args, answer(below), || ratio.floor_to(parts));
            check("ceil_to", args, answer(above), || ratio.ceil_to(parts));
            let nearest = halves * product.signum();
            check("round_to", args, answer(nearest), || ratio.round_to(parts));
        }
    }
}

#[test]
fn windows() {
    for modulus in [0, 1, 2, 97, u64::MAX] {
        check(
            "RollingHash::new",
            modulus,
            Some(modulus).filter(|m| *m > 0),
            || RollingHash::new(10, modulus, 3).modulus(),
        );
        if modulus > 0 {
            let hash = RollingHash::new(10, modulus, 3);
            let whole = i128::from(1) * 100 + 2 * 10 + 3;
            let answer = exact::residue(whole, i128::from(modulus)) as u64;
            check("hash", modulus, Some(answer), || hash.hash(&[1, 2, 3]));
        }
    }
}
