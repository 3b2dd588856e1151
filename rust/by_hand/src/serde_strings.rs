//! The types that `serde` writes and reads as their strings.
#![cfg(feature = "serde")]

use crate::calendar::{Date, IsoWeek, Weekday};
use crate::ratio64::{Decimal, Ratio};
use core::fmt;
use core::marker::PhantomData;
use core::str::FromStr;
use serde::de::{Deserialize, Deserializer, Error, Visitor};
use serde::ser::{Serialize, Serializer};

/// Reads a value of its string, of which the text says what it is.
struct Reader<T>(&'static str, PhantomData<T>);

impl<T> Visitor<'_> for Reader<T>
where
    T: FromStr,
    T::Err: fmt::Display,
{
    type Value = T;

    fn expecting(&self, f: &mut fmt::Formatter<'_>) -> fmt::Result {
        f.write_str(self.0)
    }

    fn visit_str<E: Error>(self, string: &str) -> Result<T, E> {
        string.parse().map_err(E::custom)
    }
}

macro_rules! as_string {
    ($Type:ty, $expecting:literal) => {
        /// As its string, with the feature `serde`.
        impl Serialize for $Type {
            fn serialize<S: Serializer>(&self, serializer: S) -> Result<S::Ok, S::Error> {
                serializer.collect_str(self)
            }
        }

        /// Of its string, with the feature `serde`. Another string is an error.
        impl<'de> Deserialize<'de> for $Type {
            fn deserialize<D: Deserializer<'de>>(deserializer: D) -> Result<$Type, D::Error> {
                deserializer.deserialize_str(Reader($expecting, PhantomData))
            }
        }
    };
}

as_string!(Ratio, "a fraction, as \"3/4\"");
as_string!(Decimal, "a decimal number, as \"-0.05\"");
as_string!(Date, "a date, as \"2024-02-29\"");
as_string!(IsoWeek, "a week, as \"2026-W48\"");
as_string!(Weekday, "a day of the week, as \"Monday\"");
