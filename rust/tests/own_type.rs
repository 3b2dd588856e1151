//! A type of another crate: the numbers from -100 to 100. It implements the eight methods of `Integer`, `parts` and `ends`
//! of `Fits`, the two of `Average`, and `nth_root` of `Roots`.

#[macro_use]
mod common;

use cellarcove::modular::{power_modulo, residue, Modular};
use cellarcove::operators::sum;
use cellarcove::{
    binomial, checked, multinomial, nth_root, sqrt, Average, ExtendedGcd, Fits, Integer,
    IterBinomial, Roots,
};
use num_traits::Signed;
use std::cell::Cell;
use std::ops::Neg;
use std::panic::catch_unwind;

#[derive(Debug, Clone, Copy, PartialEq, Eq, PartialOrd, Ord)]
struct Score(i32);

thread_local! {
    /// The largest number, which a test changes for itself.
    static MOST: Cell<i32> = const { Cell::new(100) };
}

/// The score, which panics outside the range as a native type does with overflow checks.
fn score(points: i32) -> Score {
    assert!(
        (-100..=MOST.get()).contains(&points),
        "no score has {points} points"
    );
    Score(points)
}

impl Score {
    fn number(&self) -> i32 {
        self.0
    }
}

implements_num! { Score, i32, score }

impl Neg for Score {
    type Output = Score;

    fn neg(self) -> Score {
        score(-self.0)
    }
}

impl Signed for Score {
    fn abs(&self) -> Score {
        score(self.0.abs())
    }

    fn abs_sub(&self, other: &Score) -> Score {
        score((self.0 - other.0).max(0))
    }

    fn signum(&self) -> Score {
        score(self.0.signum())
    }

    fn is_positive(&self) -> bool {
        self.0 > 0
    }

    fn is_negative(&self) -> bool {
        self.0 < 0
    }
}

impl Integer for Score {
    fn div_rem(&self, other: &Score) -> (Score, Score) {
        (*self / *other, *self % *other)
    }

    fn div_floor(&self, other: &Score) -> Score {
        // The remainder of `div_euclid` is at least 0, also where the divisor is negative.
        let rest = self.0.rem_euclid(other.0);
        score(self.0.div_euclid(other.0) - i32::from(other.0 < 0 && rest != 0))
    }

    fn mod_floor(&self, other: &Score) -> Score {
        *self - self.div_floor(other) * *other
    }

    fn is_multiple_of(&self, other: &Score) -> bool {
        if other.0 == 0 {
            self.0 == 0
        } else {
            self.0 % other.0 == 0
        }
    }

    fn is_even(&self) -> bool {
        self.0 % 2 == 0
    }

    fn is_odd(&self) -> bool {
        self.0 % 2 != 0
    }

    fn gcd(&self, other: &Score) -> Score {
        if self.0 == 0 {
            other.abs()
        } else {
            (*other % *self).gcd(self)
        }
    }

    fn lcm(&self, other: &Score) -> Score {
        let common = self.gcd(other);
        if common.0 == 0 {
            common
        } else {
            score((self.0 / common.0 * other.0).abs())
        }
    }
}

impl Fits for Score {
    fn parts(&self) -> (bool, u128) {
        (self.0 < 0, u128::from(self.0.unsigned_abs()))
    }

    fn ends() -> (u128, u128) {
        (100, 100)
    }
}

impl Average for Score {
    fn average_floor(&self, other: &Score) -> Score {
        score((self.0 + other.0).div_euclid(2))
    }

    fn average_ceil(&self, other: &Score) -> Score {
        score(-(-self.0 - other.0).div_euclid(2))
    }
}

impl Modular for Score {}

impl Roots for Score {
    // It has no test of its domain.
    fn nth_root(&self, n: u32) -> Score {
        let is_above = |root: i32| {
            root.checked_pow(n)
                .map_or(true, |power| power > self.0.abs())
        };
        let above = (1..=100).find(|root| is_above(*root)).unwrap_or(101);
        score((above - 1) * self.0.signum())
    }
}

#[test]
fn default_bodies() {
    let (a, b) = (Score(23), Score(8));
    assert_eq!(a.div_mod_floor(&Score(-8)), (Score(-3), Score(-1)));
    assert_eq!(Integer::div_ceil(&a, &b), Score(3));
    assert_eq!(a.next_multiple_of(&b), Score(24));
    assert_eq!(a.prev_multiple_of(&b), Score(16));
    #[allow(deprecated)]
    let divides = Score(24).divides(&b);
    assert!(divides);
    assert_eq!(Score(10).gcd_lcm(&Score(4)), (Score(2), Score(20)));
    let pair = ExtendedGcd {
        gcd: Score(1),
        x: Score(-1),
        y: Score(3),
    };
    assert_eq!(a.extended_gcd(&b), pair);
    assert_eq!(Score(5).extended_gcd_lcm(&Score(15)).1, Score(15));
    let mut x = Score(99);
    x.inc();
    assert_eq!(x, Score(100));
    x.dec();
    assert_eq!(x, Score(99));
}

#[test]
fn checked_calls() {
    assert_eq!(checked::inc(Score(100)), None);
    assert_eq!(checked::lcm(Score(11), Score(10)), None);
    assert_eq!(checked::lcm(Score(12), Score(-8)), Some(Score(24)));
    assert_eq!(checked::product(Score(-10), Score(10)), Some(Score(-100)));
    assert_eq!(checked::binomial(Score(9), Score(4)), None);
    assert_eq!(checked::binomial(Score(8), Score(4)), Some(Score(70)));
    assert!(checked::row(Score(9)).is_none());
    assert_eq!(checked::row(Score(-3)).map(|row| row.count()), Some(0));
}

#[test]
fn generic_calls() {
    let points = |row: IterBinomial<Score>| row.map(|item| item.0).collect::<Vec<_>>();
    assert_eq!(binomial(Score(8), Score(3)), Score(56));
    assert_eq!(multinomial(&[Score(2), Score(1), Score(2)]), Score(30));
    assert_eq!(points(IterBinomial::new(Score(4))), [1, 4, 6, 4, 1]);
    assert_eq!(cellarcove::average_floor(Score(-3), Score(-4)), Score(-4));
    // 7 to the power 20 is 1 modulo 100, and so is 7 to the power 100.
    assert_eq!(power_modulo(Score(7), 100, Score(100)), Score(1));
}

/// The lengths of rows are known, also at a type that has no 2.
#[test]
fn lengths_of_rows() {
    let length = |n| IterBinomial::new(Score(n)).size_hint();
    for n in -3..=100 {
        let count = usize::try_from(n + 1).unwrap_or(0);
        assert_eq!(length(n), (count, Some(count)), "{n}");
    }
    MOST.set(1);
    assert_eq!([length(0), length(1)], [(1, Some(1)), (2, Some(2))]);
}

#[test]
fn roots() {
    assert_eq!((Score(99).sqrt(), sqrt(Score(100))), (Score(9), Score(10)));
    assert_eq!((Score(-9).cbrt(), Score(64).cbrt()), (Score(-2), Score(4)));
    assert_eq!(
        (Score(-33).nth_root(5), nth_root(Score(-7), 1)),
        (Score(-2), Score(-7))
    );
    assert_eq!(checked::nth_root(Score(-33), 5), Some(Score(-2)));
    assert_eq!(checked::nth_root(Score(9), 0), None);
    assert_eq!(checked::sqrt(Score(-9)), None);
}

/// The reason of the panic of a call, or what it returns.
fn reason(call: fn() -> Score) -> String {
    match catch_unwind(call) {
        Ok(score) => format!("{score:?}"),
        Err(payload) => match payload.downcast_ref::<String>() {
            Some(reason) => reason.clone(),
            None => payload
                .downcast_ref::<&str>()
                .copied()
                .unwrap_or("")
                .to_string(),
        },
    }
}

/// Where a number does not fit, the operators of the type decide. Where a call has no meaning, it panics at any type.
#[test]
fn outside_the_domain() {
    returns! {
        reason(|| binomial(Score(9), Score(4))) => "no score has 126 points";
        reason(|| sum(Score(99), Score(2))) => "no score has 101 points";
        reason(|| residue(Score(5), Score(-7))) => "the modulus is not positive";
        reason(|| binomial(Score(5), Score(-3))) => "`k` is negative";
        reason(|| multinomial(&[Score(3), Score(-1)])) => "a count is negative";
    }
}

/// `nth_root` calls the type's own method, which has no test. `sqrt` calls that of the trait, which
/// tests the sign.
#[test]
fn roots_outside_the_domain() {
    let square = "attempt to take the square root of a negative number";
    assert_eq!(
        (nth_root(Score(9), 0), nth_root(Score(-9), 2)),
        (Score(100), Score(-3))
    );
    assert_eq!(reason(|| sqrt(Score(-9))), square);
    assert_eq!(reason(|| Score(-9).sqrt()), square);
    assert_eq!(reason(|| Score(-1).sqrt()), square);
    assert_eq!(reason(|| Score(0).sqrt()), "Score(0)");
}
