//! What the iterator over days has beside `next`, `next_back` and `size_hint`, and its traits. In Rattle these methods take one date after
//! the other.

use crate::integer_core::guards::some;
use core::iter::FusedIterator;

#[derive(Clone, Debug, PartialEq, Eq, Hash)]
struct Days;

impl Iterator for Days {
    fn nth(&mut self, n: usize) -> Option<Date> {
        self.next = match days_later(self.next, n) {
            Some(date) if is_earlier(&date, &self.end) => date,
            _ => self.next.max(self.end),
        };
        self.next()
    }

    /// # Panics
    ///
    /// If the number of dates does not fit a `usize`: [`Days::len`] is `None` then.
    #[track_caller]
    fn count(self) -> usize {
        some(self.len(), "the number of dates does not fit")
    }

    fn last(mut self) -> Option<Date> {
        self.next_back()
    }
}

impl DoubleEndedIterator for Days {
    fn nth_back(&mut self, n: usize) -> Option<Date> {
        self.end = match days_earlier(self.end, n) {
            Some(date) if is_earlier(&self.next, &date) => date,
            _ => self.end.min(self.next),
        };
        self.next_back()
    }
}

impl FusedIterator for Days {}

/// Returns the date `n` days later, or `None` if its year does not fit.
fn days_later(date: Date, n: usize) -> Option<Date> {
    match i64::try_from(n) {
        Ok(days) => date.plus_days(days),
        Err(_) => {
            let half = (n / 2) as i64;
            date.plus_days(half)?.plus_days(half)?.plus_days((n % 2) as i64)
        }
    }
}

/// Returns the date `n` days earlier, or `None` if its year does not fit.
fn days_earlier(date: Date, n: usize) -> Option<Date> {
    match i64::try_from(n) {
        Ok(days) => date.minus_days(days),
        Err(_) => {
            let half = (n / 2) as i64;
            date.minus_days(half)?.minus_days(half)?.minus_days((n % 2) as i64)
        }
    }
}
