//! The modules by hand.

mod arithmetic;
mod conversions;

pub use conversions::TryFromRatioError;
