//! Each module once, with what is not as in Rattle: the readers of fields, and panics outside the domain.

#[macro_use]
mod common;

use cellarcove::applied::schedules::{next_meeting, CommonSolution};
use cellarcove::applied::{halving, layout, paging, powers, ranking, rolling_hash::RollingHash};
use cellarcove::calendar::{easter, Date, Weekday};
use cellarcove::counted::{self, extended_gcd_counted, GcdCounted, SqrtCounted};
use cellarcove::modular::{chinese_remainder, inverse_modulo, product_modulo, residue};
use cellarcove::ratio64::{ParseRatioError, Ratio, RatioError};
use cellarcove::{binomial, checked, operators, Integer, IterBinomial, Roots};
use std::collections::HashSet;
use std::panic::catch_unwind;

#[test]
fn fractions() {
    let (half, third) = (Ratio::new(1, 2), Ratio::new(-2, -6));
    let sum = half.and_then(|half| half.checked_add(&third?));
    assert_eq!(sum.map(|sum| sum.to_string()), Ok("5/6".to_string()));
    assert_eq!(Ratio::new(i64::MIN, -1), Err(RatioError::NotFitting));
    assert_eq!(
        "1/0".parse::<Ratio>(),
        Err(ParseRatioError::ZeroDenominator)
    );
    let (num, den) = (3141592653589793, 1000000000000000);
    assert_eq!(
        Ratio::new(num, den).map(|pi| pi.limit_denominator(1000)),
        Ratio::new(355, 113)
    );
    assert!(half.ok() > third.ok() && Ratio::default().is_zero());
}

#[test]
fn dates() {
    let date: Date = "2024-02-29".parse().expect("the date is one");
    returns! {
        (date.year(), date.month(), date.day_of_month()) => (2024, 2, 29);
        date.day_number() => Some(19782);
        date.weekday() => Weekday::Thursday;
        date.plus_months(12).map(|date| date.to_string()) => Some("2025-02-28".to_string());
        easter(2000).to_string() => "2000-04-23";
        Date::from_day_number(i64::MAX).day_number() => Some(i64::MAX);
    }
}

#[test]
fn residues() {
    assert_eq!(product_modulo(u64::MAX - 1, u64::MAX - 1, u64::MAX), 1);
    assert_eq!(product_modulo(i128::MIN, 2, i128::MAX), i128::MAX - 2);
    assert_eq!(inverse_modulo(3u8, 251), Some(84));
    assert_eq!(
        chinese_remainder((2, 3).into(), (3, 5).into()),
        Some((8, 15).into())
    );
    assert_eq!(counted::power_modulo_counted(2u8, 8, 255), (1, 3));
}

#[test]
fn models() {
    assert_eq!(
        next_meeting(10, (1, 4).into(), (3, 6).into()),
        CommonSolution::At(21)
    );
    assert_eq!(paging::pages(i64::MIN, 1), i64::MIN);
    assert_eq!(layout::align_up(250u8, 8), None);
    assert_eq!(halving::lower_bound(&[1, 3, 3, 5], 4), 3);
    assert!(powers::is_square(144) && powers::is_perfect_power(128));
    let mut choice = [0; 3];
    ranking::choice_of_rank(2, 5, &mut choice);
    assert_eq!((choice, ranking::rank(&choice, 5)), ([0, 2, 3], 2));
    let hash = RollingHash::new(10, 97, 3);
    assert_eq!((hash.base(), hash.modulus(), hash.length()), (10, 97, 3));
    assert_eq!(
        hash.slide(hash.hash(&[1, 2, 3]), 1, 4),
        hash.hash(&[2, 3, 4])
    );
}

#[test]
fn counts_and_operators() {
    assert_eq!(56i64.gcd_counted(&42), (14, 1));
    assert_eq!(99u8.sqrt_counted(), (9, 2));
    assert_eq!(extended_gcd_counted(8, 13).1, 5);
    assert_eq!(operators::quotient(-8, 3), -2);
    assert_eq!(operators::negated(i64::MAX), -i64::MAX);
}

/// Until version 0.5 the modules of `applied` stood at the root.
#[test]
#[allow(deprecated)]
fn places_of_before() {
    assert!(cellarcove::coprime::is_coprime(8, 15) && cellarcove::ranking::is_choice(&[0, 2], 3));
    returns! {
        cellarcove::counting::checked::factorial(5) => Some(cellarcove::counting::factorial(5));
        cellarcove::halving::midpoint(3, 10) => cellarcove::average_floor(3, 10);
        cellarcove::layout::align_up(13, 8) => Some(16);
        cellarcove::lists::checked::gcd_of(&[12, 18]) => Some(6);
        cellarcove::paging::pages(10, 4) => 3;
        cellarcove::powers::checked::sqrt_rem(10) => Some((3, 1));
        cellarcove::rolling_hash::RollingHash::new(10, 97, 3) => RollingHash::new(10, 97, 3);
        cellarcove::rounding::checked::div_round(7, 2) => Some(4);
        cellarcove::schedules::count(4, 15, (3, 6).into()) => Some(2);
    }
    let error: cellarcove::shares::SharesError =
        cellarcove::applied::shares::SharesError::ZeroWeights;
    assert_eq!(cellarcove::shares::shares(1, &[0], &mut [0]), Err(error));
}

/// Each call of a module named `checked` is in the first one too, and so with `counted`.
#[test]
fn one_import_of_checked_calls() {
    returns! {
        checked::div_round(7, 2) => cellarcove::applied::rounding::checked::div_round(7, 2);
        counted::power_modulo_counted(3, 4, 7)
            => cellarcove::modular::counted::power_modulo_counted(3, 4, 7);
        (checked::div_round_even(5, 2), checked::div_round(7, 0)) => (Some(2), None);
        (checked::product_div_round(5, 1, 2), checked::product_div_round_even(5, 1, 2))
            => (Some(3), Some(2));
        (checked::sum_of(&[2, -5]), checked::dot_product(&[(2, -5)])) => (Some(-3), Some(-10));
        (checked::factorial(5u8), checked::falling(5u8, 2)) => (Some(120), Some(20));
        (checked::gcd_of(&[12, 18]), checked::lcm_of(&[200u8, 201])) => (Some(6), None);
        (checked::sqrt_rem(-1), checked::ilog(1000, 10)) => (None, Some(3));
        (checked::residue(-1, 7), checked::residue(-1, 0)) => (Some(6), None);
        checked::chinese_remainder((2, 3).into(), (3, 5).into()) => Some((8, 15).into());
    }
}

/// Each public module named `checked` is the one at the root, and so with `counted`: two imports of all names give one.
mod imports_of_all_names {
    #![deny(warnings)]
    use cellarcove::applied::{counting::*, lists::*, powers::*, rounding::*};
    use cellarcove::modular::*;
    use cellarcove::*;

    #[test]
    fn one_module_of_a_name() {
        assert_eq!((checked::lcm(4, 6), factorial(3)), (Some(12), 6));
        assert_eq!((gcd_of(&[12, 18]), sqrt_rem(10)), (6, (3, 1)));
        assert_eq!((cbrt(27), div_round(7, 2), residue(-1, 7)), (3, 4, 6));
        assert_eq!(counted::extended_gcd_counted(8, 13).1, 5);
        assert_eq!(cellarcove::modular::checked::lcm(4, 6), Some(12));
        assert_eq!(cellarcove::applied::lists::checked::residue(-1, 7), Some(6));
    }
}

/// What has no bound, holds any type.
struct Rows<T>(Vec<IterBinomial<T>>);

#[test]
fn comparisons_and_sets() {
    let mut rows = Rows(vec![IterBinomial::new(3u8), IterBinomial::new(3)]);
    assert_eq!(rows.0[0], rows.0[1]);
    rows.0[0].next();
    assert_ne!(rows.0[0], rows.0[1]);
    let (hash, other) = (RollingHash::new(10, 97, 2), RollingHash::new(10, 97, 3));
    assert!(hash == RollingHash::new(10, 97, 2) && hash != other);
    assert_eq!(HashSet::from([hash, hash, other]).len(), 2);
    assert_eq!(
        HashSet::from([
            240.extended_gcd(&46),
            46.extended_gcd(&240),
            240.extended_gcd(&46)
        ])
        .len(),
        2
    );
    assert_eq!(
        HashSet::from([
            next_meeting(10, (1, 4).into(), (3, 6).into()),
            CommonSolution::At(21),
            CommonSolution::Never
        ])
        .len(),
        2
    );
}

/// Whether the call panics.
fn panics<T>(call: fn() -> T) -> bool {
    catch_unwind(call).is_err()
}

/// The calls of the table in README.md: each panics, in debug and in release. `tests/domains` has all calls.
#[test]
fn outside_the_domain() {
    assert!(panics(|| i64::MIN.gcd(&0)));
    assert!(panics(|| 200u8.lcm(&201)));
    assert!(panics(|| u64::MAX.lcm(&(u64::MAX - 1))));
    assert!(panics(|| Integer::div_floor(&7, &0)));
    assert_eq!(i64::MIN.mod_floor(&-1), 0);
    assert!(panics(|| 10u8.extended_gcd(&4)));
    assert!(panics(|| (-9).sqrt()));
    assert!(panics(|| 0.nth_root(0)));
    assert!(panics(|| binomial(40u32, 20)));
    assert!(panics(|| binomial(5, -3)));
    assert!(panics(|| Integer::inc(&mut u64::MAX.clone())));
    assert!(panics(|| residue(5, 0)));
}
