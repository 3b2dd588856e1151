//! What README.md of the crate says of panics.

use cellarcove::{Integer, IterBinomial};
use std::panic::{catch_unwind, UnwindSafe};

/// The message of the panic of a call, or an empty text.
fn reason<T>(call: impl FnOnce() -> T + UnwindSafe) -> String {
    match catch_unwind(call) {
        Ok(_) => String::new(),
        Err(panic) => match panic.downcast::<&str>() {
            Ok(text) => text.to_string(),
            Err(panic) => *panic.downcast::<String>().unwrap(),
        },
    }
}

#[test]
fn reasons() {
    assert_eq!(
        reason(|| i64::MAX.lcm(&2)),
        "the least common multiple does not fit"
    );
}

#[test]
fn items_of_a_row() {
    assert!(IterBinomial::new(11u8).take(4).eq([1, 11, 55, 165]));
    assert_eq!(
        reason(|| IterBinomial::new(11u8).nth(4)),
        "the binomial coefficient does not fit"
    );
}
