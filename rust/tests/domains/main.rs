//! Each public call with a domain: within it the call returns the right answer, and outside it panics with its reason and
//! the place of the caller, in debug and in release. The domains are computed here, apart from the crate.

/// Each call panics with the reason. All that do not are printed.
macro_rules! panics {
    ($($reason:ident { $($call:expr;)* })*) => {{
        let mut wrong = Vec::new();
        $($(
            let found = $crate::tried(|| { let _ = $call; });
            if found != Err($reason.to_string()) {
                wrong.push(format!("{}: {found:?}, and not {:?}", stringify!($call), $reason));
            }
        )*)*
        assert!(wrong.is_empty(), "{wrong:#?}");
    }};
}

/// Each call returns the value. All that do not are printed.
macro_rules! returns {
    ($($call:expr => $value:expr;)*) => {{
        let mut wrong = Vec::new();
        $(
            let found = $crate::tried(|| $call);
            if found != Ok($value) {
                wrong.push(format!("{}: {found:?}", stringify!($call)));
            }
        )*
        assert!(wrong.is_empty(), "{wrong:#?}");
    }};
}

mod edges;
mod exact;
mod forms;
mod slices;
mod small;
mod wide;

use std::cell::RefCell;
use std::fmt::Debug;
use std::fs::read_to_string;
use std::panic::{catch_unwind, set_hook, take_hook, AssertUnwindSafe};
use std::sync::{Once, OnceLock};

/// The reason and the file of the last panic of a call that may panic; `None` outside such a call.
struct Watch {
    watching: bool,
    last: (String, String),
}

thread_local! {
    static WATCH: RefCell<Watch> = const { RefCell::new(Watch { watching: false, last: (String::new(), String::new()) }) };
}

/// Notes the panics of calls that may panic, and prints the others as before.
fn watch_panics() {
    static ONCE: Once = Once::new();
    ONCE.call_once(|| {
        let before = take_hook();
        set_hook(Box::new(move |panic| {
            let watching = WATCH.with_borrow(|watch| watch.watching);
            if !watching {
                return before(panic);
            }
            let payload = panic.payload();
            let reason = match payload.downcast_ref::<String>() {
                Some(reason) => reason.clone(),
                None => payload
                    .downcast_ref::<&str>()
                    .copied()
                    .unwrap_or("")
                    .to_string(),
            };
            let file = panic
                .location()
                .map_or("", |place| place.file())
                .to_string();
            WATCH.with_borrow_mut(|watch| watch.last = (reason, file));
        }));
    });
}

/// The page of errors, which the repository has and the package has not.
fn errors() -> Option<&'static str> {
    static PAGE: OnceLock<Option<String>> = OnceLock::new();
    let place = concat!(env!("CARGO_MANIFEST_DIR"), "/../docs/ERRORS.md");
    PAGE.get_or_init(|| read_to_string(place).ok()).as_deref()
}

/// What is wrong of the reason of a panic, which is said of a file.
fn complaint(reason: &str, file: &str) -> Option<String> {
    let is_shown = |page: &str| page.contains(&format!("\"{reason}\""));
    let inner = ["internal", "unreachable", "unwrap", "Option"];
    if !file.contains("domains") {
        Some(format!("`{reason}` is said of {file}"))
    } else if !errors().map_or(true, is_shown) {
        Some(format!("docs/ERRORS.md lacks `{reason}`"))
    } else {
        let word = inner.into_iter().find(|word| reason.contains(word))?;
        Some(format!("a reason has `{word}`: `{reason}`"))
    }
}

/// Runs a call, and returns the reason and the file of its panic.
fn watched(call: &mut dyn FnMut()) -> Result<(), (String, String)> {
    watch_panics();
    WATCH.with_borrow_mut(|watch| watch.watching = true);
    let outcome = catch_unwind(AssertUnwindSafe(call));
    WATCH.with_borrow_mut(|watch| watch.watching = false);
    outcome.map_err(|_| WATCH.with_borrow(|watch| watch.last.clone()))
}

/// What a call returns, or the reason of its panic, or what is wrong of that.
fn tried<R>(call: impl FnOnce() -> R) -> Result<R, String> {
    let (mut call, mut result) = (Some(call), None);
    match watched(&mut || result = call.take().map(|call| call())) {
        Ok(()) => Ok(result.expect("the call returned")),
        Err((reason, file)) => Err(complaint(&reason, &file).unwrap_or(reason)),
    }
}

/// What a call returns, or the reason of its panic.
fn outcome<R>(call: impl FnOnce() -> R) -> Result<R, String> {
    let (mut call, mut result) = (Some(call), None);
    watched(&mut || result = call.take().map(|call| call())).map_err(|(reason, file)| {
        assert_eq!(complaint(&reason, &file), None);
        reason
    })?;
    Ok(result.expect("the call returned"))
}

/// The call returns the answer, or panics where there is none.
fn check<R: PartialEq + Debug>(
    name: &str,
    args: impl Debug,
    answer: Option<R>,
    call: impl FnOnce() -> R,
) {
    let outcome = outcome(call);
    if outcome.as_ref().ok() != answer.as_ref() {
        panic!("{name} of {args:?} is {outcome:?}, and not {answer:?}");
    }
}
