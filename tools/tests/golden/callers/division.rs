use crate::guards;

/// # Panics
#[track_caller]
pub fn quotient<T: Num>(a: T, b: T) -> T { divided(a, b) }

#[track_caller]
fn divided<T: Num>(a: T, b: T) -> T { a / b }

fn not_called<T: Num>(a: T, b: T) -> T { a / b }

/// # Panics
pub fn never(a: u8) -> u8 { a / 2 }

pub fn says_nothing(a: u8) { guards::check(a > 0) }
