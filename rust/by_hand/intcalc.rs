//! `intcalc <type> <call> <operand> ..` makes one call of `num_integer` or `ratio64`, and prints the
//! answer on a line.
//!
//! The status is 0 for an answer, 1 for a refusal, 2 for words that ask for no call, 3 if there was no
//! memory, and 4 if the line could not be written.
//!
//! On Unix the program has the `main` of C. That of Rust opens `/dev/null` if the output is closed, so that
//! the status would be 0, and it aborts if there is no memory for the words.
#![cfg_attr(unix, no_main)]

use intcalc_core::run::{put_line, run};
use intcalc_core::sink::{Console, Sink};
use std::collections::TryReserveError;
#[cfg(unix)]
use std::ffi::{c_char, c_int, CStr};
#[cfg(unix)]
use std::fs::File;
#[cfg(unix)]
use std::mem::ManuallyDrop;
#[cfg(unix)]
use std::os::fd::FromRawFd;
#[cfg(unix)]
use std::slice;

#[cfg(unix)]
const OUTPUT: c_int = 1;
#[cfg(unix)]
const SIGPIPE: c_int = 13;
#[cfg(unix)]
const SIG_IGN: usize = 1;

/// Passes the words to `run`, or none if one of them is not UTF-8.
fn run_args<'a, S: Sink>(
    args: impl ExactSizeIterator<Item = Option<&'a str>>,
    out: &mut S,
) -> Result<u8, TryReserveError> {
    let count = args.len();
    let mut words = Vec::new();
    words.try_reserve_exact(count)?;
    words.extend(args.map_while(|word| word));
    if words.len() < count {
        words.clear();
    }
    Ok(run(&words, out))
}

/// Puts the line `no memory`, and returns its status.
fn put_no_memory<S: Sink>(out: &mut S) -> u8 {
    put_line(out, b"no memory\n");
    3
}

/// Puts the line for the words, and returns the exit status of the program: the status of the line,
/// 3 if there was no memory, and 4 if the sink has failed.
fn run_program<'a, S: Sink>(
    args: impl ExactSizeIterator<Item = Option<&'a str>>,
    out: &mut S,
) -> u8 {
    match run_args(args, out) {
        Ok(status) => status,
        Err(_) => put_no_memory(out),
    }
}

/// The program, whose arguments are `count` strings of C.
#[cfg(unix)]
#[no_mangle]
unsafe extern "C" fn main(count: c_int, args: *const *const c_char) -> c_int {
    extern "C" {
        fn signal(number: c_int, handler: usize) -> usize;
    }
    // SAFETY: no handler runs. A write to a pipe that nobody reads then fails.
    unsafe { signal(SIGPIPE, SIG_IGN) };
    // SAFETY: the system passes so many strings of C, which stay to the end of the program.
    let args = unsafe { slice::from_raw_parts(args, usize::try_from(count).unwrap_or(0)) };
    // SAFETY: each is such a string.
    let words = args.iter().skip(1).map(|&arg| unsafe { CStr::from_ptr(arg) }.to_str().ok());
    // SAFETY: nothing else uses the file, which nobody closes. If it is closed, a write fails.
    let output = ManuallyDrop::new(unsafe { File::from_raw_fd(OUTPUT) });
    c_int::from(run_program(words, &mut Console::new(&*output)))
}

#[cfg(not(unix))]
fn main() -> std::process::ExitCode {
    let args: Vec<_> = std::env::args_os().skip(1).collect();
    let words = args.iter().map(|arg| arg.to_str());
    run_program(words, &mut Console::new(std::io::stdout())).into()
}
