use crate::guards::check;
use crate::division::quotient as over;

pub trait Root {
    /// # Panics
    #[track_caller]
    fn root(&self) -> u8;

    fn is_root(&self) -> bool { within(true) }
}

impl Root for u8 {
    fn root(&self) -> u8 { root_by_steps(*self) }
}

#[track_caller]
fn root_by_steps(x: u8) -> u8 { let found = Steps::new(x); found.last() }

fn within(x: bool) -> bool { check(x); x }

struct Steps(u8);

impl Steps {
    #[track_caller]
    fn new(x: u8) -> Self { over(x, 1); Steps(x) }

    #[track_caller]
    fn last(self) -> u8 { check(self.0 > 0); self.0 }

    fn first(self) -> u8 { self.0 }
}

impl Iterator for Steps {
    /// # Panics
    #[track_caller]
    fn next(&mut self) -> Option<u8> { check(true); None }

    fn nth(&mut self, n: usize) -> Option<u8> { check(true); None }
}

/// # Panics
#[track_caller]
pub fn calls_one_that_says_nothing(x: bool) { says_nothing(x) }

pub fn says_nothing(x: bool) { check(x) }
