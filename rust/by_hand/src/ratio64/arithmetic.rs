//! The operators of fractions, and of a fraction and an `i64`. Each is one of the checked calls, and
//! panics, in debug and in release, if that call returns an error. Comparisons with an `i64` never
//! panic.

use crate::guards::refuse;
use crate::ratio64::{Ratio, RatioError};
use core::cmp::Ordering;
use core::iter::{Product, Sum};
use core::ops::{
    Add, AddAssign, Div, DivAssign, Mul, MulAssign, Neg, Sub, SubAssign,
};
use num_traits::{One, Zero};

/// Returns the fraction, or panics with the reason.
#[track_caller]
fn expect(result: Result<Ratio, RatioError>, reason: &'static str) -> Ratio {
    match result {
        Ok(fraction) => fraction,
        Err(RatioError::ZeroDenominator) => refuse("attempt to divide a fraction by zero"),
        Err(RatioError::NotFitting) => refuse(reason),
    }
}

/// An operator and its assigning form, of fractions, of references to them, and of an `i64` on
/// either side.
macro_rules! operator {
    ($Operator:ident $method:ident $Assign:ident $assign:ident $checked:ident
        $reason:literal $docs:literal) => {
        operator!(@by_value $Operator $method $checked $reason $docs Ratio, Ratio);
        operator!(@by_value $Operator $method $checked $reason $docs Ratio, &Ratio);
        operator!(@by_value $Operator $method $checked $reason $docs &Ratio, Ratio);
        operator!(@by_value $Operator $method $checked $reason $docs &Ratio, &Ratio);

        operator!(@by_integer $Operator $method $checked $reason $docs Ratio);
        operator!(@by_integer $Operator $method $checked $reason $docs &Ratio);
        operator!(@of_integer $Operator $method $checked $reason $docs Ratio);
        operator!(@of_integer $Operator $method $checked $reason $docs &Ratio);

        impl $Assign for Ratio {
            #[track_caller]
            fn $assign(&mut self, other: Ratio) {
                *self = expect(self.$checked(&other), $reason);
            }
        }

        impl $Assign<i64> for Ratio {
            #[track_caller]
            fn $assign(&mut self, other: i64) {
                *self = expect(self.$checked(&Ratio::from(other)), $reason);
            }
        }

        impl $Assign<&Ratio> for Ratio {
            #[track_caller]
            fn $assign(&mut self, other: &Ratio) {
                *self = expect(self.$checked(other), $reason);
            }
        }
    };
    (@by_value $Operator:ident $method:ident $checked:ident
        $reason:literal $docs:literal $A:ty, $B:ty) => {
        #[doc = $docs]
        impl $Operator<$B> for $A {
            type Output = Ratio;

            #[track_caller]
            fn $method(self, other: $B) -> Ratio {
                expect(Ratio::$checked(&self, &other), $reason)
            }
        }
    };
    (@by_integer $Operator:ident $method:ident $checked:ident
        $reason:literal $docs:literal $A:ty) => {
        #[doc = $docs]
        impl $Operator<i64> for $A {
            type Output = Ratio;

            #[track_caller]
            fn $method(self, other: i64) -> Ratio {
                expect(Ratio::$checked(&self, &Ratio::from(other)), $reason)
            }
        }
    };
    (@of_integer $Operator:ident $method:ident $checked:ident
        $reason:literal $docs:literal $B:ty) => {
        #[doc = $docs]
        impl $Operator<$B> for i64 {
            type Output = Ratio;

            #[track_caller]
            fn $method(self, other: $B) -> Ratio {
                expect(Ratio::$checked(&Ratio::from(self), &other), $reason)
            }
        }
    };
}

operator!(Add add AddAssign add_assign checked_add "the sum of the fractions does not fit"
    "Panics if [`Ratio::checked_add`] returns an error: a part of the sum does not fit.");
operator!(Sub sub SubAssign sub_assign checked_sub "the difference of the fractions does not fit"
    "Panics if [`Ratio::checked_sub`] returns an error: a part of the difference does not fit.");
operator!(Mul mul MulAssign mul_assign checked_mul "the product of the fractions does not fit"
    "Panics if [`Ratio::checked_mul`] returns an error: a part of the product does not fit.");
operator!(Div div DivAssign div_assign checked_div "the quotient of the fractions does not fit"
    "Panics if [`Ratio::checked_div`] returns an error: the divisor is 0, or a part does not fit.");

/// Panics if [`Ratio::checked_neg`] returns an error: the numerator is `i64::MIN`.
impl Neg for Ratio {
    type Output = Ratio;

    #[track_caller]
    fn neg(self) -> Ratio {
        expect(self.checked_neg(), "the negated fraction does not fit")
    }
}

/// Panics if [`Ratio::checked_neg`] returns an error: the numerator is `i64::MIN`.
impl Neg for &Ratio {
    type Output = Ratio;

    #[track_caller]
    fn neg(self) -> Ratio {
        expect(self.checked_neg(), "the negated fraction does not fit")
    }
}

/// Panics if a sum on the way does not fit. The sum of no fractions is 0.
impl Sum for Ratio {
    fn sum<I: Iterator<Item = Self>>(fractions: I) -> Ratio {
        fractions.fold(Ratio::zero(), Add::add)
    }
}

/// Panics if a sum on the way does not fit. The sum of no fractions is 0.
impl<'a> Sum<&'a Ratio> for Ratio {
    fn sum<I: Iterator<Item = &'a Self>>(fractions: I) -> Ratio {
        fractions.fold(Ratio::zero(), Add::add)
    }
}

/// Panics if a product on the way does not fit. The product of no fractions is 1.
impl Product for Ratio {
    fn product<I: Iterator<Item = Self>>(fractions: I) -> Ratio {
        fractions.fold(Ratio::one(), Mul::mul)
    }
}

/// Panics if a product on the way does not fit. The product of no fractions is 1.
impl<'a> Product<&'a Ratio> for Ratio {
    fn product<I: Iterator<Item = &'a Self>>(fractions: I) -> Ratio {
        fractions.fold(Ratio::one(), Mul::mul)
    }
}

impl PartialEq<i64> for Ratio {
    fn eq(&self, number: &i64) -> bool {
        *self == Ratio::from(*number)
    }
}

impl PartialEq<Ratio> for i64 {
    fn eq(&self, fraction: &Ratio) -> bool {
        Ratio::from(*self) == *fraction
    }
}

impl PartialOrd<i64> for Ratio {
    fn partial_cmp(&self, number: &i64) -> Option<Ordering> {
        Some(self.cmp(&Ratio::from(*number)))
    }
}

impl PartialOrd<Ratio> for i64 {
    fn partial_cmp(&self, fraction: &Ratio) -> Option<Ordering> {
        Some(Ratio::from(*self).cmp(fraction))
    }
}

/// No sum with 0 panics.
impl Zero for Ratio {
    fn zero() -> Ratio {
        Ratio::zero()
    }

    fn is_zero(&self) -> bool {
        Ratio::is_zero(self)
    }
}

/// No product with 1 panics.
impl One for Ratio {
    fn one() -> Ratio {
        Ratio::one()
    }
}
