//! The modules by hand.

mod week_strings;

pub use week_strings::IsoWeekError;
