//! The weeks of ISO 8601 of their strings.

use crate::calendar::IsoWeek;
use crate::errors::Error;
use core::fmt::{self, Write};
use core::str::FromStr;

/// A string that is not the one that `Display` writes of a week.
///
/// # Examples
///
/// ```
/// use cellarcove::calendar::{IsoWeek, IsoWeekError};
///
/// assert_eq!("2005-W53".parse::<IsoWeek>(), Err(IsoWeekError));
/// ```
#[derive(Debug, Clone, Copy, PartialEq, Eq, Hash)]
pub struct IsoWeekError;

impl fmt::Display for IsoWeekError {
    fn fmt(&self, f: &mut fmt::Formatter<'_>) -> fmt::Result {
        f.pad("not the string of a week")
    }
}

impl Error for IsoWeekError {}

/// # Examples
///
/// ```
/// use cellarcove::calendar::IsoWeek;
///
/// assert_eq!("2004-W53".parse::<IsoWeek>().ok(), IsoWeek::new(2004, 53));
/// ```
///
/// # Errors
///
/// [`IsoWeekError`] if the string is not the one that `Display` writes of a week of its year.
impl FromStr for IsoWeek {
    type Err = IsoWeekError;

    fn from_str(string: &str) -> Result<IsoWeek, IsoWeekError> {
        read_week(string).ok_or(IsoWeekError)
    }
}

/// Returns the week that is written so.
fn read_week(string: &str) -> Option<IsoWeek> {
    let (year, week) = string.rsplit_once("-W")?;
    let week = IsoWeek::new(year.parse().ok()?, week.parse().ok()?)?;
    let mut rest = Rest(string);
    write!(rest, "{week}").ok()?;
    rest.0.is_empty().then_some(week)
}

/// What is left of a string from which each written part is taken.
struct Rest<'a>(&'a str);

impl Write for Rest<'_> {
    fn write_str(&mut self, part: &str) -> fmt::Result {
        self.0 = self.0.strip_prefix(part).ok_or(fmt::Error)?;
        Ok(())
    }
}
