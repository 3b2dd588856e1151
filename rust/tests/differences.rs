//! What docs/DIFFERENCES.md says of this crate. compare/tests/front_page.rs has what `num-integer` returns.

use cellarcove::ratio64::{ParseRatioError, Ratio, RatioError};
use cellarcove::{binomial, multinomial, Integer, Roots};
use std::panic::catch_unwind;

const MIN: i64 = i64::MIN;

#[test]
fn results_that_differ() {
    assert_eq!(MIN.mod_floor(&-1), 0);
    assert!(MIN.is_multiple_of(&-1));
    assert_eq!(Integer::next_multiple_of(&MIN, &-1), MIN);
    assert_eq!(MIN.lcm(&0), 0);
    assert_eq!(MIN.nth_root(1), MIN);
    assert_eq!(MIN.extended_gcd(&1).gcd, 1);
    assert!(catch_unwind(|| binomial(5, -3)).is_err());
    assert!(catch_unwind(|| binomial(-5, 3)).is_err());
    assert!(catch_unwind(|| multinomial(&[2, -1])).is_err());
}

#[test]
fn fractions() {
    let half_of_five = Ratio::new(5, 2).unwrap();
    let rounded: [i64; 4] = [
        half_of_five.floor(),
        half_of_five.ceil(),
        half_of_five.trunc(),
        half_of_five.round(),
    ];
    assert_eq!(rounded, [2, 3, 2, 3]);
    for text in ["+1", " 1/2 ", "1.5"] {
        assert_eq!(text.parse::<Ratio>(), Err(ParseRatioError::NotAFraction));
    }
    assert_eq!("6/-4".parse(), Ok(Ratio::new(-3, 2).unwrap()));
    // only the result in lowest terms has to fit
    let large = Ratio::new(1, i64::MAX).unwrap();
    assert_eq!(large.checked_add(&large), Ratio::new(2, i64::MAX));
    assert_eq!(
        Ratio::new(i64::MAX, 1).unwrap().checked_mul(&half_of_five),
        Err(RatioError::NotFitting)
    );
    assert_eq!(
        half_of_five.checked_div(&Ratio::zero()),
        Err(RatioError::ZeroDenominator)
    );
}
