//! Fractions of integers, and integers and floating-point numbers of fractions.

use crate::ratio64::{Decimal, Ratio, RatioError};
use crate::errors::Error;
use core::fmt;

/// A fraction that is no integer of the wanted type: its denominator is not 1, or its numerator does
/// not fit.
///
/// # Examples
///
/// ```
/// use cellarcove::ratio64::Ratio;
///
/// assert_eq!(u8::try_from(Ratio::from(255i64)), Ok(255));
/// assert!(u8::try_from(Ratio::new(255, 2).unwrap()).is_err());
/// ```
#[derive(Debug, Clone, Copy, PartialEq, Eq, Hash)]
pub struct TryFromRatioError(());

impl fmt::Display for TryFromRatioError {
    fn fmt(&self, f: &mut fmt::Formatter<'_>) -> fmt::Result {
        f.pad("the fraction is no integer of the type")
    }
}

impl Error for TryFromRatioError {}

macro_rules! from_integer {
    ($($Integer:ty)*) => {$(
        impl From<$Integer> for Ratio {
            fn from(number: $Integer) -> Ratio {
                Ratio::from(i64::from(number))
            }
        }
    )*};
}

from_integer!(i8 i16 i32 u8 u16 u32);

macro_rules! try_from_integer {
    ($($Integer:ty)*) => {$(
        /// The error [`RatioError::NotFitting`] if the number does not fit an `i64`.
        impl TryFrom<$Integer> for Ratio {
            type Error = RatioError;

            fn try_from(number: $Integer) -> Result<Ratio, RatioError> {
                match i64::try_from(number) {
                    Ok(number) => Ok(Ratio::from(number)),
                    Err(_) => Err(RatioError::NotFitting),
                }
            }
        }
    )*};
}

try_from_integer!(u64 i128 u128 isize usize);

macro_rules! try_into_integer {
    ($($Integer:ty)*) => {$(
        /// An error if the denominator is not 1 or the numerator does not fit.
        impl TryFrom<Ratio> for $Integer {
            type Error = TryFromRatioError;

            fn try_from(fraction: Ratio) -> Result<$Integer, TryFromRatioError> {
                if fraction.den() == 1 {
                    <$Integer>::try_from(fraction.num()).map_err(|_| TryFromRatioError(()))
                } else {
                    Err(TryFromRatioError(()))
                }
            }
        }
    )*};
}

try_into_integer!(i8 i16 i32 i64 i128 isize u8 u16 u32 u64 u128 usize);

/// The integer with no places.
///
/// # Examples
///
/// ```
/// use cellarcove::ratio64::Decimal;
///
/// assert_eq!(Decimal::from(-7i64).to_string(), "-7");
/// ```
impl From<i64> for Decimal {
    fn from(number: i64) -> Decimal {
        Decimal::from_integer(number)
    }
}

impl Ratio {
    /// Returns the nearest floating-point number, and of two equally near the one whose last bit
    /// is even, as Python's `float` of a `Fraction` does. Parts of more than 53 bits are not rounded
    /// first.
    ///
    /// # Examples
    ///
    /// ```
    /// use cellarcove::ratio64::Ratio;
    ///
    /// assert_eq!(Ratio::new(-1, 8).unwrap().to_f64(), -0.125);
    /// assert_eq!(Ratio::new(1, 3).unwrap().to_f64(), 1.0 / 3.0);
    /// assert_eq!(Ratio::from((1i64 << 53) + 1).to_f64(), 9007199254740992.0);
    /// ```
    #[must_use]
    pub fn to_f64(&self) -> f64 {
        let (num, den) = (u128::from(self.num().unsigned_abs()), u128::from(self.den().unsigned_abs()));
        if num == 0 {
            return 0.0;
        }
        // The quotient has 65 bits or more. Its last bit is set if a remainder is left, so that
        // `as`, which rounds it to 53 bits, sees no tie where there is none.
        let shift = num.leading_zeros();
        let quotient = ((num << shift) / den) | u128::from((num << shift) % den != 0);
        // 2 to the power of `-shift`, which is at least 2 to the power of -127
        let scale = f64::from_bits(u64::from(1023 - shift) << 52);
        let size = quotient as f64 * scale;
        if self.num() < 0 { -size } else { size }
    }
}
