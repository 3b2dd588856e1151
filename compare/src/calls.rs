//! The calls, and what the crate answers.

use crate::asked::{binomial, multinomial, Average, ExtendedGcd, Integer, Roots};
use crate::inputs::Whole;
use num_traits::{FromPrimitive, PrimInt};
use std::fmt::Debug;
use std::ops::Add;
use std::panic::{catch_unwind, RefUnwindSafe};

/// A type of the crate. A call that the type does not have answers `None`.
pub trait Number:
    Integer
    + Average
    + PrimInt
    + FromPrimitive
    + RefUnwindSafe
    + Debug
    + for<'a> Add<&'a Self, Output = Self>
{
    fn extended_gcd_lcm_of(self, _: Self) -> Option<(ExtendedGcd<Self>, Self)> {
        None
    }

    fn root_of(self, _: Call) -> Option<Self> {
        None
    }
}

macro_rules! signed {
    () => {
        fn extended_gcd_lcm_of(self, other: Self) -> Option<(ExtendedGcd<Self>, Self)> {
            Some(self.extended_gcd_lcm(&other))
        }
    };
}

macro_rules! rooted {
    () => {
        fn root_of(self, root: Call) -> Option<Self> {
            match root {
                Sqrt => Some(self.sqrt()),
                Cbrt => Some(self.cbrt()),
                NthRoot(degree) => Some(self.nth_root(degree)),
                _ => None,
            }
        }
    };
}

#[cfg(feature = "cellarcove")]
macro_rules! rooted_at_128_bits {
    () => {};
}

#[cfg(not(feature = "cellarcove"))]
macro_rules! rooted_at_128_bits {
    () => {
        rooted!();
    };
}

macro_rules! numbers {
    ($($number:ty: $($calls:ident)*;)*) => {$(
        impl Number for $number {
            $($calls!();)*
        }
    )*};
}

// The calls that not every type has, or that not both crates have.
numbers! {
    i8: signed rooted;
    i16: signed rooted;
    i32: signed rooted;
    i64: signed rooted;
    i128: signed rooted_at_128_bits;
    isize: signed rooted;
    u8: rooted;
    u16: rooted;
    u32: rooted;
    u64: rooted;
    u128: rooted_at_128_bits;
    usize: rooted;
}

/// The number in the type, where it lies there.
pub fn value<T: Number>((negative, magnitude): Whole) -> Option<T> {
    if negative {
        T::from_i128(0i128.checked_sub_unsigned(magnitude)?)
    } else {
        T::from_u128(magnitude)
    }
}

fn whole<T: Number>(x: T) -> Whole {
    match x.to_u128() {
        Some(magnitude) => (false, magnitude),
        None => (true, x.to_i128().expect("it is negative").unsigned_abs()),
    }
}

/// Declares the calls: those of two operands, at every type, and the others.
macro_rules! calls {
    ($($of_pair:ident)+; $($other:ident)+) => {
        #[derive(Clone, Copy, Debug, PartialEq)]
        pub enum Call {
            $($of_pair,)+
            $($other,)+
            NthRoot(u32),
        }

        pub const OF_PAIRS: &[Call] = &[$($of_pair),+];
    };
}

calls! {
    DivRem DivFloor ModFloor DivModFloor DivCeil NextMultipleOf PrevMultipleOf IsMultipleOf Divides IsEvenIsOdd
    Gcd Lcm GcdLcm ExtendedGcd AverageFloor AverageCeil Binomial;
    ExtendedGcdLcm Sqrt Cbrt Multinomial IterBinomial
}

use Call::*;

impl Call {
    /// The call's name in the list.
    pub fn name(self) -> String {
        match self {
            NthRoot(_) => "NthRoot".to_string(),
            _ => format!("{self:?}"),
        }
    }

    /// Whether the call is made. Left out are divisors 0 of `is_multiple_of` and `divides`, which
    /// the crate's version 0.1.44 refuses; negative counts, at which it gives some number; and
    /// Bezout pairs of numbers that `i128` does not have.
    fn is_asked(self, operands: &[Whole]) -> bool {
        match self {
            IsMultipleOf | Divides => operands[1].1 != 0,
            Binomial | Multinomial | IterBinomial => operands.iter().all(|count| !count.0),
            ExtendedGcd => operands.iter().all(|operand| operand.1 >> 127 == 0),
            _ => true,
        }
    }

    /// What the crate answers at the type. It panics outside its domain.
    fn made<T: Number>(self, x: &[T]) -> Vec<Whole> {
        let pair = |(first, second)| vec![whole::<T>(first), whole(second)];
        let truth = |holds| vec![(false, u128::from(holds))];
        match self {
            DivRem => pair(x[0].div_rem(&x[1])),
            DivFloor => vec![whole(x[0].div_floor(&x[1]))],
            ModFloor => vec![whole(x[0].mod_floor(&x[1]))],
            DivModFloor => pair(x[0].div_mod_floor(&x[1])),
            DivCeil => vec![whole(Integer::div_ceil(&x[0], &x[1]))],
            NextMultipleOf => vec![whole(x[0].next_multiple_of(&x[1]))],
            PrevMultipleOf => vec![whole(x[0].prev_multiple_of(&x[1]))],
            IsMultipleOf => truth(x[0].is_multiple_of(&x[1])),
            Divides => truth(x[0].divides(&x[1])),
            IsEvenIsOdd => [truth(x[0].is_even()), truth(x[1].is_odd())].concat(),
            Gcd => vec![whole(x[0].gcd(&x[1]))],
            Lcm => vec![whole(x[0].lcm(&x[1]))],
            GcdLcm => pair(x[0].gcd_lcm(&x[1])),
            ExtendedGcd => bezout(x[0].extended_gcd(&x[1])),
            AverageFloor => vec![whole(x[0].average_floor(&x[1]))],
            AverageCeil => vec![whole(x[0].average_ceil(&x[1]))],
            Binomial => vec![whole(binomial(x[0], x[1]))],
            ExtendedGcdLcm => match x[0].extended_gcd_lcm_of(x[1]) {
                Some((answer, lcm)) => [bezout(answer), vec![whole(lcm)]].concat(),
                None => panic!("the type has no sign"),
            },
            Sqrt | Cbrt | NthRoot(_) => match x[0].root_of(self) {
                Some(root) => vec![whole(root)],
                None => panic!("the type has no roots"),
            },
            Multinomial => vec![whole(multinomial(x))],
            IterBinomial => crate::asked::IterBinomial::new(x[0]).map(whole).collect(),
        }
    }

    /// The crate's answer at the type, or `None` where it panics.
    fn answer<T: Number>(self, operands: &[Whole]) -> Option<Vec<Whole>> {
        let x: Vec<T> = operands.iter().map(|n| value(*n)).collect::<Option<_>>()?;
        catch_unwind(|| self.made(&x)).ok()
    }

    /// The crate's answer at the type, or else the one at `i128` where its numbers lie in the type.
    /// Beside it, whether it took `i128`.
    pub fn narrowed<T: Number>(self, operands: &[Whole]) -> Option<(Vec<Whole>, bool)> {
        if !self.is_asked(operands) {
            return None;
        }
        if let Some(answer) = self.answer::<T>(operands) {
            return Some((answer, false));
        }
        let answer = self.answer::<i128>(operands)?;
        let fits = answer.iter().all(|n| value::<T>(*n).is_some());
        fits.then_some((answer, true))
    }
}

fn bezout<T: Number>(answer: ExtendedGcd<T>) -> Vec<Whole> {
    [answer.gcd, answer.x, answer.y].map(whole).to_vec()
}
