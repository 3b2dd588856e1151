// How a program prints the values of a line.
#[cfg(test)]
mod line_values {
    use std::fmt::Debug;
    use std::panic::{catch_unwind, AssertUnwindSafe};

    fn value<T: Debug>(made: impl FnOnce() -> T) -> String {
        match catch_unwind(AssertUnwindSafe(made)) {
            Ok(value) => format!("{value:?}"),
            Err(said) => match (said.downcast_ref::<&str>(), said.downcast_ref::<String>()) {
                (Some(said), _) => format!("a panic: {said}"),
                (_, Some(said)) => format!("a panic: {said}").replace('\n', " "),
                _ => "a panic".to_string(),
            },
        }
    }

    pub(crate) fn show<T: Debug>(
        number: usize,
        call: impl FnOnce() -> T,
        wrong: impl FnOnce() -> T,
        right: impl FnOnce() -> T,
    ) {
        println!("\n{number}\t{}\t{}\t{}", value(call), value(wrong), value(right));
    }
}
