//! Known values of products over a divisor and of `applied`, most of them at the ends of the types.

use cellarcove::applied::halving::lower_bound;
use cellarcove::applied::paging::item_at;
use cellarcove::applied::powers::{is_perfect_power, is_power, is_square};
use cellarcove::applied::ranking::{choice_of_rank, is_choice, next_choice, rank, rank_fits};
use cellarcove::applied::rolling_hash::RollingHash;
use cellarcove::applied::schedules::{next_meeting_of, Schedule};
use cellarcove::checked::product_div_mod_floor;
use cellarcove::modular::CommonSolution::{At, Beyond, Never};
use cellarcove::{binomial, Fits};
use std::fmt::Debug;

/// Asserts that the check holds, and shows the row if it does not.
fn holds_at(holds: bool, row: &impl Debug) {
    assert!(holds, "at {row:?}");
}

/// Two factors, a divisor, and the quotient with its remainder.
type Row<T> = (T, T, T, Option<(T, T)>);

static SIGNED: [Row<i64>; 15] = [
    (i64::MAX, 2, 3, Some((6148914691236517204, 2))),
    (i64::MAX, 3, 2, None),
    (i64::MIN, -1, -1, Some((i64::MIN, 0))),
    (i64::MIN, -1, 1, None),
    (i64::MIN, i64::MIN, i64::MIN, Some((i64::MIN, 0))),
    (i64::MIN, i64::MAX, i64::MIN, Some((i64::MAX, 0))),
    (
        i64::MAX,
        i64::MAX,
        i64::MIN,
        Some((-9223372036854775807, -9223372036854775807)),
    ),
    (i64::MAX, 19, 100, Some((1752440687002407403, 33))),
    (-8, 1, 3, Some((-3, 1))),
    (8, 1, -3, Some((-3, -1))),
    (0, i64::MIN, -1, Some((0, 0))),
    (5, 1, -1, Some((-5, 0))),
    (i64::MIN, 1, -1, None),
    (i64::MIN, 1, 2, Some((-4611686018427387904, 0))),
    (1, 1, 0, None),
];

static UNSIGNED: [Row<u64>; 5] = [
    (u64::MAX, u64::MAX, u64::MAX, Some((u64::MAX, 0))),
    (u64::MAX, u64::MAX, u64::MAX - 1, None),
    (u64::MAX, 10, 11, Some((16769767339735956013, 7))),
    (u64::MAX, 0, 1, Some((0, 0))),
    (0, 0, 0, None),
];

#[test]
fn rates_at_the_ends() {
    for (a, b, d, expected) in &SIGNED {
        let found = product_div_mod_floor(*a, *b, *d);
        holds_at(found == *expected, &(*a, *b, *d));
    }
    for (a, b, d, expected) in &UNSIGNED {
        let found = product_div_mod_floor(*a, *b, *d);
        holds_at(found == *expected, &(*a, *b, *d));
    }
}

#[test]
fn items_at_their_places() {
    assert!(item_at(2u8, 2, 4) == Some(10) && item_at(15u8, 15, 16) == Some(255));
    assert!(item_at(64u8, 0, 4).is_none() && item_at(25u8, 6, 10).is_none());
    assert!(item_at(-1i64, 3, 4) == Some(-1) && item_at(-2i8, 99, 100) == Some(-101));
    assert!(item_at(-13i8, 2, 10) == Some(-128) && item_at(-13i8, 1, 10).is_none());
    assert!(item_at(-128i8, 126, 127).is_none());
}

#[test]
fn meetings_of_several() {
    for (now, next) in [(-128i8, At(0)), (1, Beyond)] {
        let found = next_meeting_of(now, &[(0, 11).into(), (0, 13).into(), (0, 7).into()]);
        holds_at(found == next, &("next_meeting_of", now));
    }
    let found = next_meeting_of(-128i8, &[(5, 11).into(), (5, 13).into(), (5, 7).into()]);
    holds_at(found == At(5), &"next_meeting_of");
    let found = next_meeting_of(0u8, &[(1, 4).into(), (3, 6).into(), (0, 7).into()]);
    holds_at(found == At(21), &"next_meeting_of");
    let found = next_meeting_of(0u8, &[(1, 4).into(), (3, 6).into(), (0, 2).into()]);
    holds_at(found == Never, &"next_meeting_of");
    // not before the first time of any, which stands at each place of the list
    for schedules in [
        [(50, 10), (0, 1), (0, 2)],
        [(0, 1), (50, 10), (0, 2)],
        [(0, 1), (0, 2), (50, 10)],
    ] {
        let found = next_meeting_of(0i8, &schedules.map(Schedule::from));
        holds_at(found == At(50), &("next_meeting_of", schedules));
    }
    let found = next_meeting_of(i64::MAX, &[(0, 1).into(), (1, 2).into()]);
    holds_at(found == At(i64::MAX), &"next_meeting_of");
}

#[test]
fn places_in_a_sorted_list() {
    let mut items = [5i64, 3, i64::MIN, 3];
    items.sort_unstable();
    for (least, place) in [(i64::MIN, 0), (2, 1), (3, 1), (4, 3), (5, 3), (i64::MAX, 4)] {
        holds_at(lower_bound(&items, least) == place, &("lower_bound", least));
    }
}

#[test]
fn places_in_short_lists() {
    let mut none: [u8; 0] = [];
    none.sort_unstable();
    let mut one = [7u8];
    one.sort_unstable();
    let places = (
        lower_bound(&none, 7),
        lower_bound(&one, 7),
        lower_bound(&one, 8),
    );
    assert!(places == (0, 0, 1));
}

/// Whether a number is a square.
static SQUARES: [(u64, bool); 6] = [
    (0, true),
    (1, true),
    (144, true),
    (145, false),
    (18446744065119617025, true),
    (u64::MAX, false),
];

#[test]
fn squares() {
    for &(n, square) in &SQUARES {
        holds_at(is_square(n) == square, &("is_square", n));
    }
    assert!(is_square(121i8) && !is_square(127i8) && !is_square(-121i8));
    assert!(is_square(225u8) && !is_square(2u8) && !is_square(i64::MIN));
}

#[test]
fn powers_of_a_degree() {
    for (n, degree, power) in [(243u8, 5, true), (243, 4, false), (244, 5, false)] {
        holds_at(
            degree > 0 && is_power(n, degree) == power,
            &("is_power", n, degree),
        );
    }
    for (n, degree, power) in [
        (i64::MIN, 2, false),
        (-1, u32::MAX - 1, false),
        (-1, u32::MAX, true),
        (i64::MIN, 63, true),
        (i64::MAX, 63, false),
    ] {
        holds_at(
            degree > 0 && is_power(n, degree) == power,
            &("is_power", n, degree),
        );
    }
}

#[test]
fn powers_at_other_types() {
    assert!(is_power(-128i8, 7) && !is_power(-16i8, 4));
    assert!(is_power(-243i16, 5) && !is_power(-244i16, 5));
    assert!(is_power(-7i32, 1) && is_power(0u32, 64) && is_power(1u64, u32::MAX));
    assert!(is_power(12157665459056928801u64, 40) && !is_power(12157665459056928802u64, 40));
}

static TO_144: [u64; 18] = [
    0, 1, 4, 8, 9, 16, 25, 27, 32, 36, 49, 64, 81, 100, 121, 125, 128, 144,
];

#[test]
fn perfect_powers() {
    for n in 0..=144 {
        holds_at(
            is_perfect_power(n) == TO_144.contains(&n),
            &("is_perfect_power", n),
        );
    }
    for (n, power) in [
        (1 << 61, true),
        ((1 << 61) - 1, false),
        (15181127029874798299, true),
        (u64::MAX, false),
    ] {
        holds_at(is_perfect_power(n) == power, &("is_perfect_power", n));
    }
}

/// The choices of three of the numbers below 5, in the order of their ranks.
static THREE_OF_FIVE: [[u64; 3]; 10] = [
    [0, 1, 2],
    [0, 1, 3],
    [0, 2, 3],
    [1, 2, 3],
    [0, 1, 4],
    [0, 2, 4],
    [1, 2, 4],
    [0, 3, 4],
    [1, 3, 4],
    [2, 3, 4],
];

#[test]
fn choices_and_their_ranks() {
    let mut forty = [0; 40];
    for (i, number) in forty.iter_mut().enumerate() {
        *number = i as u64;
    }
    assert!(is_choice(&forty, 80) && rank_fits(&forty) && !80u64.binomial_fits(&40));
    assert!(is_choice(&[0, 2, 3], 5) && is_choice(&[], 0) && is_choice(&[48], 49));
    assert!(!is_choice(&[0, 2, 2], 5) && !is_choice(&[0, 2, 5], 5) && !is_choice(&[1, 0], 5));
    assert!(!is_choice(&[u64::MAX], u64::MAX) && !rank_fits(&[0, u64::MAX]));
    assert!(rank_fits(&[2, 6074001000]) && !rank_fits(&[3000000000, 6074001000]));
}

/// The first choice of each length has the rank 0, and with each number one greater, a rank of 1 for each number.
#[test]
fn ranks_of_long_choices() {
    for length in [60, 61, 62, 63, 64, 65, 1000u64] {
        let first: Vec<u64> = (0..length).collect();
        let later: Vec<u64> = (1..=length).collect();
        holds_at(rank_fits(&first) && rank_fits(&later), &length);
        holds_at(rank(&first, length) == 0, &("rank", length));
        holds_at(rank(&later, length + 1) == length, &("rank", length));
    }
}

#[test]
fn ranks() {
    assert!(rank(&[0, 1, 2], 5) == 0 && rank(&[0, 2, 3], 5) == 2 && rank(&[2, 3, 4], 5) == 9);
    assert!(rank(&[], 5) == 0 && rank(&[3], 5) == 3 && rank(&[0, 1, 2, 3, 4], 5) == 0);
}

#[test]
fn each_rank() {
    for (i, numbers) in THREE_OF_FIVE.iter().enumerate() {
        let mut choice = [0; 3];
        choice_of_rank(i as u64, 5, &mut choice);
        holds_at(
            choice == *numbers && rank(&choice, 5) == i as u64,
            &("rank", i),
        );
    }
}

/// Fills the slice with the choice of a rank, which is the rank of that choice.
fn fill(wanted: u64, n: u64, choice: &mut [u64]) {
    let k = choice.len() as u64;
    assert!(n.binomial_fits(&k) && wanted < binomial(n, k));
    choice_of_rank(wanted, n, choice);
    assert!(rank(choice, n) == wanted);
}

#[test]
fn great_choices() {
    let mut lottery = [0; 6];
    fill(13983815, 49, &mut lottery);
    assert!(lottery == [43, 44, 45, 46, 47, 48]);

    let mut one = [0];
    fill(12345678901234567890, u64::MAX, &mut one);
    assert!(one == [12345678901234567890]);

    let mut most = [0; 98];
    fill(4949, 100, &mut most);
    assert!(most[0] == 2 && most[49] == 51 && most[97] == 99);
}

#[test]
fn next_choices() {
    let mut choice = [0, 1, 4];
    assert!(next_choice(&mut choice, 5) && choice == [0, 2, 4]);
    let mut last = [u64::MAX - 1];
    assert!(!next_choice(&mut last, u64::MAX) && last == [u64::MAX - 1]);
    let mut wide = [0, u64::MAX - 3, u64::MAX - 2];
    assert!(next_choice(&mut wide, u64::MAX) && next_choice(&mut wide, u64::MAX));
    assert!(wide == [2, u64::MAX - 3, u64::MAX - 2]);
    let mut none: [u64; 0] = [];
    assert!(!next_choice(&mut none, 0));
}

#[test]
fn hashes() {
    let decimal = RollingHash::new(10, 97, 3);
    assert!(decimal.hash(&[1, 2, 3]) == 26 && decimal.hash(&[0, 0, 0]) == 0);
    assert!(decimal.slide(26, 1, 4) == 40);
    let all_alike = RollingHash::new(257, 1, 1);
    assert!(all_alike.hash(&[255]) == 0 && all_alike.slide(0, 255, 7) == 0);
}

/// Modulo 2^61 - 1 the powers of 2 repeat after 61 of them, and 2^32 + 1 is 58 more than a multiple of 61. So a window of 2^32 + 2 bytes, a 1
/// and zeros behind it, has the hash 2^58.
#[test]
fn long_windows() {
    let rolling = RollingHash::new(2, (1 << 61) - 1, (1 << 32) + 2);
    assert!(rolling.slide(1 << 58, 1, 0) == 0 && rolling.slide(1 << 58, 1, 7) == 7);
    assert!(rolling.slide(5, 0, 7) == 17);
    // 2^64 - 2 is 14 more than a multiple of 61
    let longest = RollingHash::new(2, (1 << 61) - 1, u64::MAX);
    assert!(longest.slide(1 << 14, 1, 9) == 9);
}

/// At base 256 a window is read as a number of 32 bits.
#[test]
fn windows_of_four_bytes() {
    let text = [97u8, 32, 119, 105, 110, 100, 111, 119, 255, 0, 0, 255];
    let rolling = RollingHash::new(256, 1000003, 4);
    let mut hash = rolling.hash(&[97, 32, 119, 105]);
    for i in 4..12usize {
        hash = rolling.slide(hash, text[i - 4], text[i]);
        let window = u32::from_be_bytes([text[i - 3], text[i - 2], text[i - 1], text[i]]);
        holds_at(hash == u64::from(window) % 1000003, &("hash", i));
    }
}
