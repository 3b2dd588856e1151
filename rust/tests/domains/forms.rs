//! One call of each form of a domain, with the reason of its panic. The helper sees to it that the place of each panic is
//! in these files.

use crate::outcome;
use cellarcove::applied::{
    counting, halving, layout, lists, paging, powers, ranking, rolling_hash::RollingHash, rounding,
    schedules, shares,
};
use cellarcove::bounded_integers::Percent;
use cellarcove::calendar::{days_in_month, Date};
use cellarcove::counted::{
    binomial_counted, extended_gcd_counted, power_modulo_counted, GcdCounted, SqrtCounted,
};
use cellarcove::modular::{self, Modular};
use cellarcove::ratio64::Ratio;
use cellarcove::{binomial, multinomial, operators, Integer, IterBinomial, Roots};
use std::time::{Duration, Instant};

const GCD: &str = "the greatest common divisor does not fit";
const LCM: &str = "the least common multiple does not fit";
const PAIR: &str = "no pair of coefficients fits the unsigned type";
const BINOMIAL: &str = "the binomial coefficient does not fit";
const MULTINOMIAL: &str = "the multinomial coefficient does not fit";
const DIVIDE: &str = "attempt to divide by zero";
const DIVIDE_OVER: &str = "attempt to divide with overflow";
const REMAINDER: &str = "attempt to calculate the remainder with a divisor of zero";
const REMAINDER_OVER: &str = "attempt to calculate the remainder with overflow";
const ADD: &str = "attempt to add with overflow";
const SUBTRACT: &str = "attempt to subtract with overflow";
const MULTIPLY: &str = "attempt to multiply with overflow";
const NEGATE: &str = "attempt to negate with overflow";
const SQUARE_ROOT: &str = "attempt to take the square root of a negative number";
const EVEN_ROOT: &str = "attempt to take an even root of a negative number";
const DEGREE: &str = "attempt to take a root of degree 0";
const MODULUS: &str = "the modulus is not positive";
const ONE_MODULUS: &str = "a modulus is not positive";
const PERIOD: &str = "the period is not positive";
const PAGE_SIZE: &str = "the page size is not positive";
const ALIGNMENT: &str = "the alignment is not positive";
const RANGE: &str = "the number is out of range";
const CHOICE: &str = "the numbers of the choice do not increase below `n`";

#[test]
fn bounded_integers() {
    panics! {
        RANGE {
            Percent::new(101);
            Percent::new(-1);
            Percent::new(60) + Percent::new(50);
            Percent::new(1) - Percent::new(2);
            Percent::new(50) * Percent::new(3);
            Percent::new(100).lcm(&Percent::new(99));
        }
    }
}

#[test]
fn division() {
    let least = i64::MIN;
    panics! {
        DIVIDE {
            7.div_rem(&0);
            Integer::div_floor(&7, &0);
            7.mod_floor(&0);
            7.div_mod_floor(&0);
            Integer::div_ceil(&7, &0);
            Integer::next_multiple_of(&7, &0);
            7.prev_multiple_of(&0);
            cellarcove::div_rem(7u8, 0);
            cellarcove::div_floor(7u128, 0);
            cellarcove::mod_floor(7, 0);
            cellarcove::div_mod_floor(7, 0);
            cellarcove::div_ceil(7, 0);
            operators::quotient(7, 0);
            rounding::div_round(7, 0);
            rounding::div_round_even(7u64, 0);
        }
        DIVIDE_OVER {
            least.div_rem(&-1);
            Integer::div_floor(&i8::MIN, &-1);
            least.div_mod_floor(&-1);
            Integer::div_ceil(&i128::MIN, &-1);
            cellarcove::div_rem(least, -1);
            cellarcove::div_floor(least, -1);
            cellarcove::div_mod_floor(least, -1);
            cellarcove::div_ceil(least, -1);
            operators::quotient(least, -1);
            rounding::div_round(least, -1);
            rounding::div_round_even(i8::MIN, -1);
        }
        REMAINDER { operators::remainder(7, 0); }
        REMAINDER_OVER { operators::remainder(least, -1); }
        ADD {
            Integer::next_multiple_of(&u64::MAX, &2);
            Integer::next_multiple_of(&least, &i64::MIN.wrapping_add(1));
            Integer::inc(&mut u64::MAX.clone());
            operators::sum(u64::MAX, 1);
            operators::successor(i32::MAX);
        }
        SUBTRACT {
            i8::MIN.prev_multiple_of(&3);
            Integer::dec(&mut least.clone());
            0u8.dec();
            operators::difference(0u64, 1);
            operators::predecessor(0u16);
        }
        MULTIPLY { operators::product(1i64 << 62, 2); }
        NEGATE {
            operators::negated(least);
            operators::negated(1u8);
        }
    }
    assert_eq!(least.mod_floor(&-1), 0);
}

#[test]
fn divisors() {
    panics! {
        GCD {
            i64::MIN.gcd(&0);
            cellarcove::gcd(i8::MIN, i8::MIN);
            0.gcd_counted(&i32::MIN);
            i64::MIN.gcd_lcm(&0);
            cellarcove::gcd_lcm(i64::MIN, i64::MIN);
            i64::MIN.extended_gcd(&0);
            extended_gcd_counted(0, i128::MIN);
            i16::MIN.extended_gcd_lcm(&i16::MIN);
            lists::gcd_of(&[0, i8::MIN]);
            lists::gcd_of(&[i128::MIN]);
        }
        LCM {
            (1u64 << 63).lcm(&3);
            (1i64 << 62).lcm(&5);
            (1i128 << 126).lcm(&5);
            u64::MAX.lcm(&(u64::MAX - 1));
            i64::MAX.lcm(&(i64::MAX - 1));
            i64::MIN.lcm(&1);
            200u8.lcm(&201);
            100i8.lcm(&3);
            64i8.lcm(&3);
            usize::MAX.lcm(&(usize::MAX - 1));
            cellarcove::lcm(u128::MAX, u128::MAX - 1);
            u64::MAX.gcd_lcm(&(u64::MAX - 1));
            cellarcove::gcd_lcm(u64::MAX, u64::MAX - 1);
            i64::MAX.extended_gcd_lcm(&(i64::MAX - 1));
            modular::chinese_remainder((1u8, 100).into(), (3, 101).into());
            modular::chinese_remainder((1i64, i64::MAX).into(), (3, i64::MAX - 1).into());
            lists::lcm_of(&[16u8, 17]);
            lists::lcm_of(&[i64::MIN]);
        }
        PAIR {
            10u8.extended_gcd(&4);
            4u64.extended_gcd(&10);
            extended_gcd_counted(10u128, 4);
        }
    }
}

#[test]
fn roots() {
    panics! {
        SQUARE_ROOT {
            (-9).sqrt();
            cellarcove::sqrt(-1i8);
            (-1i64).sqrt_counted();
        }
        EVEN_ROOT {
            (-9i64).nth_root(4);
            cellarcove::nth_root(-9i64, 2);
            (-9i64).nth_root(u32::MAX - 1);
        }
        DEGREE {
            0.nth_root(0);
            cellarcove::nth_root(9u64, 0);
            (-9).nth_root(0);
            powers::is_power(9, 0);
        }
    }
}

/// Roots with what is left, logarithms and factorials.
#[test]
fn powers_and_factorials() {
    let (n, k) = ("`n` is negative", "`k` is negative");
    let (number, base) = ("the number is not positive", "the base is below 2");
    let (factorial, falling) = ("the factorial does not fit", "the falling factorial does not fit");
    panics! {
        n {
            powers::sqrt_rem(-1);
            counting::factorial(-5);
            counting::falling(-5i8, 2);
        }
        k { counting::falling(5, -2); }
        number {
            powers::ilog(0, 10);
            powers::ilog(-5i8, 10);
        }
        base {
            powers::ilog(5, 0);
            powers::ilog(5u8, 1);
        }
        factorial {
            counting::factorial(6u8);
            counting::factorial(21u64);
            counting::factorial(u64::MAX);
        }
        falling {
            counting::falling(8u8, 3);
            counting::falling(u128::MAX, 2);
        }
    }
}

#[test]
fn coefficients() {
    let start = Instant::now();
    let (n, k) = ("`n` is negative", "`k` is negative");
    let count = "a count is negative";
    panics! {
        n {
            binomial(-5, 3);
            binomial_counted(-5i8, 3);
        }
        k {
            binomial(5, -3);
            binomial_counted(5, -1);
        }
        count {
            multinomial(&[3, -1]);
            multinomial(&[-1i64]);
        }
        BINOMIAL {
            binomial(40u32, 20);
            binomial_counted(11u8, 5);
            binomial(u64::MAX, u64::MAX / 2);
            binomial(u128::MAX, 1 << 100);
            binomial(i64::MAX, 3);
            for item in IterBinomial::new(11u8) { assert!(item > 0) };
        }
        MULTINOMIAL {
            multinomial(&[255u8, 1]);
            multinomial(&[8u8, 2, 2]);
            multinomial(&[210u8, 5, 82]);
            multinomial(&[1u64 << 62, 1 << 62]);
            multinomial(&[u64::MAX, 1 << 62]);
        }
    }
    assert!(start.elapsed() < Duration::from_secs(5), "a call runs long");
}

/// An item is computed when it is asked for. The one that does not fit panics each time.
#[test]
fn rows() {
    let first = |n: u8, items| IterBinomial::new(n).take(items).collect::<Vec<_>>();
    assert_eq!(first(11, 4), [1, 11, 55, 165]);
    assert_eq!(first(20, 3), [1, 20, 190]);
    assert_eq!(first(u8::MAX, 2), [1, u8::MAX]);
    assert_eq!(IterBinomial::new(u64::MAX).take(2).last(), Some(u64::MAX));
    assert_eq!(
        first(10, 100),
        [1, 10, 45, 120, 210, 252, 210, 120, 45, 10, 1]
    );
    let mut row = IterBinomial::new(u8::MAX);
    assert_eq!((row.next(), row.next()), (Some(1), Some(u8::MAX)));
    panics! {
        BINOMIAL {
            row.next();
            row.next();
        }
    }
    let mut row = IterBinomial::new(i8::MAX);
    assert_eq!((row.next(), row.next()), (Some(1), Some(i8::MAX)));
    panics! {
        BINOMIAL {
            row.next();
            row.next();
            for item in IterBinomial::new(i128::MAX) { assert!(item > 0) };
        }
    }
}

#[test]
fn moduli() {
    panics! {
        MODULUS {
            modular::residue(5, 0);
            modular::residue(5, -7);
            modular::sum_modulo(2, 3, -7);
            modular::difference_modulo(2, 3, -7);
            modular::negation_modulo(2, -7);
            modular::product_modulo(-4, 5, -7);
            modular::product_modulo(4u8, 5, 0);
            4.product_modulo(&5, &-7);
            modular::power_modulo(2, 3, -7);
            power_modulo_counted(2, 3, -7);
            2.power_modulo_counted(3, &0);
            modular::inverse_modulo(3i64, -7);
            modular::inverse_modulo(3, 0);
            modular::quotient_modulo(2, 3, -7);
            modular::solutions(2, 3, -7);
            modular::next_common_solution(0, (1, -2).into(), (1, 3).into());
            modular::next_common_solution(0, (1, 2).into(), (1, -3).into());
            RollingHash::new(10, 0, 2);
            modular::next_congruent(10, 1, -4);
            modular::previous_congruent(10, 1, -4);
            modular::count_congruent(1, 10, 1, -4);
            modular::count_congruent(10, 1, 1, 0);
        }
        ONE_MODULUS {
            modular::chinese_remainder((1, -2).into(), (1, 3).into());
            modular::chinese_remainder((1, 2).into(), (1, 0).into());
            modular::next_common_solution_of(0, &[(1, 2).into(), (1, -3).into()]);
            modular::next_common_solution_of(0u8, &[(1, 0).into()]);
        }
    }
}

#[test]
fn lengths_of_windows() {
    let hash = RollingHash::new(10, 97, 3);
    let (no_byte, other_length) = ("the window has no byte", "the window has another length");
    panics! {
        no_byte {
            RollingHash::new(10, 97, 0);
        }
        other_length {
            hash.hash(&[1, 2]);
            hash.hash(&[1, 2, 3, 4]);
            hash.hash(&[]);
        }
    }
    returns! {
        RollingHash::new(10, 97, 1).hash(&[5]) => 5;
        hash.hash(&[1, 2, 3]) => 26;
    }
}

#[test]
fn models() {
    let (part, parts) = (
        "the part is negative",
        "the part is not below the number of parts",
    );
    let (items, place, end) = (
        "the number of items is negative",
        "the place is negative",
        "the place is not below the page size",
    );
    let (one_period, rank) = ("a period is not positive", "no choice has the rank");
    let (zero, above) = (
        "no month has the number 0",
        "no month has a number above 12",
    );
    let (limit, great_rank) = ("the limit is not positive", "the rank does not fit");
    let number_of_parts = "the number of parts is not positive";
    let number_of_instalments = "the number of instalments is not positive";
    panics! {
        number_of_instalments {
            shares::instalments(100i64, 0);
            shares::instalments(100u8, 0);
        }
        PERIOD {
            schedules::count(0, 9, (1, -2).into());
            schedules::count(9u8, 0, (1, 0).into());
        }
        one_period {
            schedules::next_meeting(0, (1, -2).into(), (1, 3).into());
            schedules::next_meeting(0, (1, 2).into(), (1, 0).into());
            schedules::next_meeting_of(0, &[(1, 2).into(), (1, -3).into()]);
        }
        PAGE_SIZE {
            paging::pages(5, 0);
            paging::place_of(5, -8);
            paging::range_of_page(1, -8, 10);
        }
        items {
            paging::range_of_page(1, 8, -10);
            paging::range_of_part(1, 3, -10);
        }
        part { paging::range_of_part(-1, 3, 10); }
        parts {
            paging::range_of_part(5, 3, 10u32);
            paging::range_of_part(0, 0, 10);
        }
        place { paging::item_at(1, -1, 8); }
        end { paging::item_at(1, 8, 8); }
        ALIGNMENT {
            layout::align_up(5, -8);
            layout::align_up(5u8, 0);
            layout::padding(5, -8);
        }
        CHOICE {
            ranking::rank(&[9, 9, 9], 5);
            ranking::rank(&[0, 2, 3], 3);
            ranking::next_choice(&mut [3, 1], 5);
            ranking::next_choice(&mut [3, 5], 5);
        }
        great_rank {
            ranking::rank(&[2746052116, 6074001000], 6074001001);
            ranking::rank(&[0, u64::MAX - 1], u64::MAX);
        }
        rank {
            ranking::choice_of_rank(13983816, 49, &mut [0; 6]);
            ranking::choice_of_rank(0, 2, &mut [0; 3]);
        }
        zero { days_in_month(2024, 0); }
        above {
            days_in_month(2024, 13);
            days_in_month(2024, 255);
        }
        limit {
            Ratio::default().limit_denominator(0);
            Ratio::from(5).limit_denominator(-1);
            Ratio::default().limit_parts(0);
            Ratio::from(5).limit_parts(-1);
        }
        number_of_parts {
            Ratio::from(5).floor_to(0);
            Ratio::from(5).ceil_to(-1);
            Ratio::from(5).round_to(i64::MIN);
            Ratio::from(5).round_even_to(0);
        }
    }
    // The one call that is not tested: the place of a number in a slice that does not increase is some place.
    assert!(halving::lower_bound(&[3, 1, 2], 2) <= 3);
}

#[test]
fn dates() {
    let first = Date::new(i64::MIN, 1, 1).unwrap();
    let last = Date::new(i64::MAX, 12, 31).unwrap();
    let (days, year, count) = (
        "the number of days does not fit",
        "the year of the date does not fit",
        "the number of dates does not fit",
    );
    panics! {
        days {
            last - first;
            first - last;
        }
        year {
            last + 1;
            first + -1;
            last + i64::MAX;
            first - 1;
            last - -1;
            last - i64::MIN;
            { let mut date = last; date += 1; };
            { let mut date = first; date -= 1; };
        }
        count { first.days_until(last).count(); }
    }
}

/// What a call changes it leaves as it was where it panics.
#[test]
fn unchanged() {
    let (mut number, mut choice) = (u8::MAX, [7, 3, 1]);
    assert!(outcome(|| number.inc()).is_err() && number == u8::MAX);
    assert!(outcome(|| ranking::next_choice(&mut choice, 9)).is_err());
    assert!(outcome(|| ranking::choice_of_rank(84, 9, &mut choice)).is_err());
    assert_eq!(choice, [7, 3, 1]);
}
