//! A type of another crate that is not `Copy`: a number on the heap. Its crate depends on `cellarcove` alone.

#[macro_use]
mod common;

use cellarcove::num_traits::Signed;
use cellarcove::{ExtendedGcd, Integer, Roots};
use std::ops::Neg;

#[derive(Debug, Clone, PartialEq, Eq, PartialOrd, Ord)]
struct Boxed(Box<i64>);

fn boxed(number: i64) -> Boxed {
    Boxed(Box::new(number))
}

impl Boxed {
    fn number(&self) -> i64 {
        *self.0
    }
}

implements_num! { Boxed, i64, boxed }

impl Neg for Boxed {
    type Output = Boxed;

    fn neg(self) -> Boxed {
        boxed(-*self.0)
    }
}

impl Signed for Boxed {
    fn abs(&self) -> Boxed {
        boxed(self.0.abs())
    }

    fn abs_sub(&self, other: &Boxed) -> Boxed {
        boxed((*self.0 - *other.0).max(0))
    }

    fn signum(&self) -> Boxed {
        boxed(self.0.signum())
    }

    fn is_positive(&self) -> bool {
        *self.0 > 0
    }

    fn is_negative(&self) -> bool {
        *self.0 < 0
    }
}

/// The eight methods, by those of `i64`.
impl Integer for Boxed {
    fn div_rem(&self, other: &Boxed) -> (Boxed, Boxed) {
        let (quotient, remainder) = self.0.div_rem(&*other.0);
        (boxed(quotient), boxed(remainder))
    }

    fn div_floor(&self, other: &Boxed) -> Boxed {
        boxed(Integer::div_floor(&*self.0, &*other.0))
    }

    fn mod_floor(&self, other: &Boxed) -> Boxed {
        boxed(self.0.mod_floor(&*other.0))
    }

    fn is_multiple_of(&self, other: &Boxed) -> bool {
        Integer::is_multiple_of(&*self.0, &*other.0)
    }

    fn is_even(&self) -> bool {
        self.0.is_even()
    }

    fn is_odd(&self) -> bool {
        self.0.is_odd()
    }

    fn gcd(&self, other: &Boxed) -> Boxed {
        boxed(self.0.gcd(&*other.0))
    }

    fn lcm(&self, other: &Boxed) -> Boxed {
        boxed(self.0.lcm(&*other.0))
    }
}

impl Roots for Boxed {
    fn nth_root(&self, n: u32) -> Boxed {
        boxed(self.0.nth_root(n))
    }
}

#[test]
fn default_bodies() {
    let (a, b) = (boxed(23), boxed(8));
    assert_eq!(a.div_mod_floor(&boxed(-8)), (boxed(-3), boxed(-1)));
    assert_eq!(a.div_ceil(&b), boxed(3));
    assert_eq!(a.next_multiple_of(&b), boxed(24));
    assert_eq!(boxed(24).next_multiple_of(&b), boxed(24));
    assert_eq!(a.prev_multiple_of(&b), boxed(16));
    #[allow(deprecated)]
    let divides = boxed(24).divides(&b);
    assert!(divides);
    assert_eq!(boxed(10).gcd_lcm(&boxed(4)), (boxed(2), boxed(20)));
    let mut x = boxed(99);
    x.inc();
    assert_eq!(x, boxed(100));
    x.dec();
    assert_eq!(x, boxed(99));
    assert_eq!((boxed(99).sqrt(), boxed(-99).cbrt()), (boxed(9), boxed(-4)));
}

#[test]
fn bezout_pairs() {
    let pair = |gcd, x, y| ExtendedGcd {
        gcd: boxed(gcd),
        x: boxed(x),
        y: boxed(y),
    };
    assert_eq!(boxed(240).extended_gcd(&boxed(46)), pair(2, -9, 47));
    assert_eq!(boxed(23).extended_gcd(&boxed(-8)), pair(1, -1, -3));
    assert_eq!(boxed(-7).extended_gcd(&boxed(0)), pair(7, -1, 0));
    let (least_pair, multiple) = boxed(10).extended_gcd_lcm(&boxed(4));
    assert_eq!((least_pair, multiple), (pair(2, 1, -2), boxed(20)));
}

#[test]
fn free_functions() {
    let (a, b) = (|| boxed(-23), || boxed(8));
    assert_eq!(cellarcove::div_rem(a(), b()), (boxed(-2), boxed(-7)));
    assert_eq!(cellarcove::div_floor(a(), b()), boxed(-3));
    assert_eq!(cellarcove::mod_floor(a(), b()), boxed(1));
    assert_eq!(cellarcove::div_mod_floor(a(), b()), (boxed(-3), boxed(1)));
    assert_eq!(cellarcove::div_ceil(a(), b()), boxed(-2));
    assert_eq!(cellarcove::gcd(boxed(56), boxed(42)), boxed(14));
    assert_eq!(cellarcove::lcm(boxed(7), boxed(3)), boxed(21));
    assert_eq!(
        cellarcove::gcd_lcm(boxed(10), boxed(4)),
        (boxed(2), boxed(20))
    );
    assert_eq!(cellarcove::sqrt(boxed(99)), boxed(9));
    assert_eq!(cellarcove::cbrt(boxed(27)), boxed(3));
    assert_eq!(cellarcove::nth_root(boxed(33), 5), boxed(2));
}
