//! Guards that no call of `domains/forms.rs` misses, since a later one has the same reason: the methods of one's own type need not test
//! their domains, and two moduli are tested before their multiple.

#[macro_use]
mod common;

use cellarcove::applied::{layout, powers};
use cellarcove::counted::power_modulo_counted;
use cellarcove::modular::{chinese_remainder, product_modulo, Modular};
use cellarcove::{sqrt, Integer, Roots};
use std::fmt::Debug;
use std::panic::{catch_unwind, UnwindSafe};

const MODULUS: &str = "the modulus is not positive";
const DEGREE: &str = "attempt to take a root of degree 0";

/// A type whose methods do not test their domains.
#[derive(Debug, Clone, Copy, PartialEq, Eq, PartialOrd, Ord)]
struct Bold(i64);

impl Bold {
    fn number(&self) -> i64 {
        self.0
    }
}

implements_num! { Bold, i64, Bold }

impl Integer for Bold {
    fn div_rem(&self, other: &Bold) -> (Bold, Bold) {
        (*self / *other, *self % *other)
    }

    fn div_floor(&self, other: &Bold) -> Bold {
        Bold(Integer::div_floor(&self.0, &other.0))
    }

    fn mod_floor(&self, other: &Bold) -> Bold {
        Bold(self.0.mod_floor(&other.0))
    }

    fn is_multiple_of(&self, other: &Bold) -> bool {
        Integer::is_multiple_of(&self.0, &other.0)
    }

    fn is_even(&self) -> bool {
        self.0.is_even()
    }

    fn is_odd(&self) -> bool {
        self.0.is_odd()
    }

    fn gcd(&self, other: &Bold) -> Bold {
        Bold(self.0.gcd(&other.0))
    }

    fn lcm(&self, other: &Bold) -> Bold {
        Bold(self.0.lcm(&other.0))
    }
}

impl Modular for Bold {
    fn product_modulo(&self, other: &Bold, _modulus: &Bold) -> Bold {
        *self * *other
    }

    fn power_modulo_counted(&self, _exponent: u128, _modulus: &Bold) -> (Bold, u32) {
        (*self, 0)
    }
}

impl Roots for Bold {
    fn nth_root(&self, _n: u32) -> Bold {
        *self
    }

    fn sqrt(&self) -> Bold {
        *self
    }
}

/// What a call returns, or the reason of its panic.
fn outcome<R: Debug>(call: impl FnOnce() -> R + UnwindSafe) -> Result<R, String> {
    catch_unwind(call).map_err(|payload| *payload.downcast().expect("a reason"))
}

/// Each call panics with the reason. All that do not are printed.
macro_rules! panics {
    ($($reason:ident { $($call:expr;)* })*) => {{
        let mut wrong = Vec::new();
        $($(
            let found = outcome(|| $call);
            if found.as_ref().err().map(String::as_str) != Some($reason) {
                wrong.push(format!("{}: {found:?}, and not {:?}", stringify!($call), $reason));
            }
        )*)*
        assert!(wrong.is_empty(), "{wrong:#?}");
    }};
}

#[test]
fn functions_test_before_the_methods_of_a_type() {
    let (x, y, m) = (Bold(-9), Bold(9), Bold(-7));
    panics! {
        MODULUS {
            power_modulo_counted(x, 3, m);
            power_modulo_counted(y, 3, m);
            power_modulo_counted(y, 3, Bold(0));
        }
    }
}

#[test]
fn functions_call_the_methods_of_a_type() {
    let (x, m, one) = (Bold(-9), Bold(-7), Bold(1));
    assert_eq!((x.sqrt(), x.product_modulo(&x, &m)), (x, Bold(81)));
    assert_eq!((sqrt(x), product_modulo(x, x, m)), (x, Bold(81)));
    assert_eq!(outcome(|| power_modulo_counted(x, 3, one)), Ok((x, 0)));
}

/// The multiple fits the type of the magnitudes, and a negative number is no power of degree 0.
#[test]
fn before_the_last_step() {
    let lcm = "the least common multiple does not fit";
    panics! {
        lcm { 100i8.gcd_lcm(&3); }
        DEGREE { powers::is_power(-9, 0); }
    }
}

#[test]
fn moduli_are_tested_before_their_multiple() {
    let reason = "a modulus is not positive";
    panics! {
        reason {
            chinese_remainder((1, i64::MIN).into(), (3, 5).into());
            chinese_remainder((1, 5).into(), (3, i64::MIN).into());
        }
    }
}

/// 5100 does not fit, and no number is odd and even. So it is at a type of one's own, whose multiples nobody tests.
#[test]
fn without_a_solution_the_multiple_need_not_fit() {
    assert_eq!(chinese_remainder((1u8, 100).into(), (2, 102).into()), None);
    assert_eq!(
        chinese_remainder((1, i64::MAX - 1).into(), (2, i64::MAX - 3).into()),
        None
    );
}

/// Where std's division would panic too, the reason is that of the call.
#[test]
fn alignments_are_tested_before_the_division() {
    let reason = "the alignment is not positive";
    for alignment in [0i8, -1, i8::MIN] {
        panics! {
            reason {
                layout::padding(5, alignment);
                layout::align_up(5, alignment);
            }
        }
    }
}
