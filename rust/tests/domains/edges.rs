//! The arguments on both sides of the edge of each domain: the last for which a call returns a
//! value, and the first for which it panics. A guard that asks for one more or one less fails here.

use cellarcove::applied::rolling_hash::RollingHash;
use cellarcove::applied::{counting, layout, lists, paging, powers, ranking, schedules, shares};
use cellarcove::bounded_integers::Percent;
use cellarcove::calendar::days_in_month;
use cellarcove::counted::{power_modulo_counted, SqrtCounted};
use cellarcove::modular::{self, CommonSolution, Modular};
use cellarcove::ratio64::Ratio;
use cellarcove::{binomial, multinomial};
use cellarcove::{Integer, Roots};

const N: &str = "`n` is negative";
const K: &str = "`k` is negative";
const LCM: &str = "the least common multiple does not fit";
const PAIR: &str = "no pair of coefficients fits the unsigned type";
const MODULUS: &str = "the modulus is not positive";
const ONE_MODULUS: &str = "a modulus is not positive";

#[test]
fn ranges_and_months() {
    returns! {
        Percent::new(0).number() => 0;
        Percent::new(100).number() => 100;
        days_in_month(2024, 1) => 31;
        days_in_month(2024, 12) => 31;
    }
}

#[test]
fn coefficients() {
    panics! {
        N {
            binomial(-1, 3);
            counting::factorial(-1);
            counting::falling(-1i8, 0);
        }
        K {
            binomial(5, -1);
            counting::falling(5, -1);
        }
    }
    returns! {
        binomial(0, 0) => 1;
        binomial(5, 0) => 1;
        multinomial(&[0, 3]) => 1;
        counting::factorial(0) => 1;
        counting::falling(0, 0) => 1;
        counting::falling(5, 0) => 1;
    }
}

#[test]
fn divisors() {
    panics! {
        PAIR {
            6u8.extended_gcd(&4);
            4u8.extended_gcd(&6);
        }
        LCM {
            100i8.gcd_lcm(&3);
            3i8.gcd_lcm(&100);
            lists::lcm_of(&[100i8, 3]);
        }
    }
    returns! {
        0.gcd(&0) => 0;
        0u8.gcd_lcm(&0) => (0, 0);
        10u8.extended_gcd(&5).gcd => 5;
        5u8.extended_gcd(&10).gcd => 5;
    }
}

#[test]
fn roots_and_powers() {
    let square = "attempt to take the square root of a negative number";
    let even = "attempt to take an even root of a negative number";
    panics! {
        square {
            (-1).sqrt();
            (-1).sqrt_counted();
            cellarcove::sqrt(-1);
        }
        even {
            (-1).nth_root(2);
            cellarcove::nth_root(-1, 2);
        }
        N { powers::sqrt_rem(-1); }
    }
    returns! {
        0.sqrt() => 0;
        cellarcove::sqrt(0) => 0;
        0.sqrt_counted().0 => 0;
        0.nth_root(2) => 0;
        9.nth_root(2) => 3;
        (-8).nth_root(3) => -2;
        9.nth_root(1) => 9;
        cellarcove::nth_root(0, 2) => 0;
        powers::is_power(9, 1) => true;
        powers::sqrt_rem(0) => (0, 0);
        powers::ilog(1, 10) => 0;
        powers::ilog(5, 2) => 2;
    }
}

#[test]
fn moduli() {
    panics! {
        MODULUS {
            modular::residue(5, 0);
            modular::product_modulo(4, 5, 0);
            4.product_modulo(&5, &0);
            power_modulo_counted(2, 3, 0);
            modular::count_congruent(1, 10, 1, 0);
            RollingHash::new(10, 0, 2);
        }
        ONE_MODULUS {
            modular::chinese_remainder((1, 0).into(), (1, 3).into());
            modular::chinese_remainder((1, 3).into(), (1, 0).into());
            modular::next_common_solution_of(0, &[(1, -3).into(), (1, 2).into()]);
            modular::next_common_solution_of(0, &[(1, 0).into(), (1, 2).into()]);
            modular::next_common_solution_of(0, &[(1, 2).into(), (1, 0).into()]);
        }
        LCM {
            modular::chinese_remainder((1u8, 100).into(), (1, 101).into());
            modular::chinese_remainder((100u8, 100).into(), (1, 101).into());
        }
    }
    returns! {
        modular::residue(5, 1) => 0;
        modular::product_modulo(4, 5, 1) => 0;
        modular::product_modulo(-4, -5, 7) => 6;
        4.product_modulo(&5, &1) => 0;
        (-4).product_modulo(&-5, &7) => 6;
        power_modulo_counted(-2, 3, 7).0 => 6;
        modular::power_modulo(2, 3, 1) => 0;
        modular::count_congruent(1, 10, 0, 1) => Some(10);
        modular::chinese_remainder((0, 1).into(), (0, 1).into()) => Some((0, 1).into());
        modular::chinese_remainder((0, 1).into(), (-1, 3).into()) => Some((2, 3).into());
        modular::chinese_remainder((-1, 3).into(), (0, 1).into()) => Some((2, 3).into());
        modular::next_common_solution_of(5, &[(0, 1).into()]) => CommonSolution::At(5);
        RollingHash::new(10, 1, 2).modulus() => 1;
    }
}

#[test]
fn pages_and_places() {
    let (page_size, alignment) = (
        "the page size is not positive",
        "the alignment is not positive",
    );
    let (items, place) = ("the number of items is negative", "the place is negative");
    let (end, part) = (
        "the place is not below the page size",
        "the part is negative",
    );
    let parts = "the part is not below the number of parts";
    panics! {
        page_size {
            paging::pages(5, 0);
            paging::place_of(5, 0);
            paging::range_of_page(1, 0, 10);
        }
        items {
            paging::range_of_page(1, 8, -1);
            paging::range_of_part(1, 3, -1);
        }
        place { paging::item_at(1, -1, 8); }
        end {
            paging::item_at(1, 8, 8);
            paging::item_at(9, 8, 8);
        }
        part { paging::range_of_part(-1, 3, 10); }
        parts {
            paging::range_of_part(3, 3, 10);
            paging::range_of_part(3, 3, 2);
        }
        alignment {
            layout::align_up(5, 0);
            layout::padding(5, 0);
        }
    }
    returns! {
        paging::pages(5, 1) => 5;
        paging::pages(-5, 1) => -5;
        paging::place_of(5, 1) => (5, 0);
        paging::place_of(-5, 2) => (-3, 1);
        paging::range_of_page(1, 1, 10) => (1, 2);
        paging::range_of_page(0, 8, 0) => (0, 0);
        paging::item_at(1, 0, 8) => Some(8);
        paging::item_at(1, 7, 8) => Some(15);
        paging::range_of_part(0, 3, 0) => (0, 0);
        paging::range_of_part(2, 3, 9) => (6, 9);
        paging::range_of_part(0, 1, 10) => (0, 10);
        layout::align_up(5, 1) => Some(5);
        layout::align_up(-5, 4) => Some(-4);
        layout::padding(5, 1) => 0;
        layout::padding(-5, 4) => 1;
    }
}

#[test]
fn choices_and_ranks() {
    let choice = "the numbers of the choice do not increase below `n`";
    let rank = "no choice has the rank";
    panics! {
        choice {
            ranking::rank(&[3, 1], 5);
            ranking::rank(&[1, 1], 5);
            ranking::rank(&[1, 5], 5);
            ranking::next_choice(&mut [3, 1], 5);
            ranking::next_choice(&mut [1, 5], 5);
        }
        rank {
            ranking::choice_of_rank(10, 5, &mut [0; 3]);
        }
    }
    returns! {
        ranking::rank(&[], 5) => 0;
        ranking::rank(&[3, 4], 5) => 9;
        ranking::next_choice(&mut [3, 4], 5) => false;
        ranking::choice_of_rank(9, 5, &mut [0; 3]) => ();
        ranking::choice_of_rank(0, 3, &mut [0; 3]) => ();
        // more than 2^64 choices
        ranking::choice_of_rank(u64::MAX, u64::MAX, &mut [0; 3]) => ();
    }
}

#[test]
fn equal_instalments() {
    let count = "the number of instalments is not positive";
    panics! {
        count {
            shares::instalments(100i64, 0);
            shares::instalments(100i64, -1);
            shares::instalments(100u8, 0);
        }
    }
    returns! {
        shares::instalments(100i64, 1).next() => Some(100);
        shares::instalments(100u8, 1).next() => Some(100);
    }
}

#[test]
fn fractions() {
    let limit = "the limit is not positive";
    let parts = "the number of parts is not positive";
    let half = || Ratio::new(1, 2).expect("one half");
    panics! {
        limit {
            half().limit_denominator(0);
            half().limit_parts(0);
        }
        parts {
            half().floor_to(0);
            half().ceil_to(0);
            half().round_to(0);
            half().round_even_to(0);
        }
    }
    let whole = |number: i64| Ratio::from(number);
    returns! {
        half().limit_denominator(1).den() => 1;
        whole(1).limit_parts(1) => whole(1);
        half().floor_to(1) => Ok(whole(0));
        half().ceil_to(1) => Ok(whole(1));
        half().round_to(1) => Ok(whole(1));
        half().round_even_to(1) => Ok(whole(0));
    }
}

#[test]
fn times() {
    let (period, one_period) = ("the period is not positive", "a period is not positive");
    panics! {
        period {
            schedules::count(0, 9, (1, 0).into());
        }
        one_period {
            schedules::next_meeting(0, (1, 0).into(), (1, 3).into());
            schedules::next_meeting(0, (1, 3).into(), (1, 0).into());
            schedules::next_meeting_of(0, &[(1, -2).into(), (1, 3).into()]);
            schedules::next_meeting_of(0, &[(1, 0).into(), (1, 3).into()]);
            schedules::next_meeting_of(0, &[(1, 3).into(), (1, 0).into()]);
        }
    }
    returns! {
        schedules::next_meeting(0, (0, 1).into(), (0, 1).into()) => CommonSolution::At(0);
        schedules::next_meeting_of(0, &[(0, 1).into(), (0, 1).into()]) => CommonSolution::At(0);
        schedules::count(0, 9, (0, 1).into()) => Some(10);
    }
}
