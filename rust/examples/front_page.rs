//! The example of the front page, and more.

use cellarcove::ratio64::{Ratio, RatioError};
use cellarcove::{checked, Integer};

fn main() {
    assert_eq!((-8i64).div_mod_floor(&3), (-3, 1));
    assert_eq!(checked::lcm(i64::MAX, 2), None);
    let daily = Ratio::new(730087, 730000).unwrap();
    assert_eq!(daily.checked_pow(4), Err(RatioError::NotFitting));
    // By repeated products, as compare/tests/front_page.rs computes with num-rational.
    let three_days = (daily.checked_mul(&daily)).and_then(|factor| factor.checked_mul(&daily));
    assert_eq!(
        three_days,
        Ratio::new(389156103476768503, 389017000000000000)
    );
    let fourth_day = three_days.and_then(|factor| factor.checked_mul(&daily));
    assert_eq!(fourth_day, Err(RatioError::NotFitting));
    // A year, rounded to nine places each day; Python's `Fraction` has the same.
    let year = (0..365).try_fold(Ratio::one(), |factor, _| {
        factor.checked_mul(&daily)?.round_even_to(1_000_000_000)
    });
    assert_eq!(year, Ratio::new(1044457283, 1_000_000_000));
}
