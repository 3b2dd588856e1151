//! Over a writer that fails, the status is 4, and nothing is written or flushed from then on.
use intcalc_core::run::run;
use intcalc_core::sink::{Console, Sink};
use std::io::{self, ErrorKind, Write};

/// A result, a refusal, and words that are no call, each with its line.
const ROWS: [(&[&str], &str); 3] = [
    (&["i64", "div_mod_floor", "-8", "3"], "-3 1\n"),
    (&["i64", "div_floor", "1", "0"], "refused 2 ZeroDivisor\n"),
    (&["i64", "gcd", "+1", "2"], "usage\n"),
];

/// What a writer does wrong, once: the write after so many bytes returns an error or takes no byte, or
/// the first flush returns an error.
#[derive(Clone, Copy, Debug)]
enum Fault {
    Write(usize, Option<ErrorKind>),
    Flush(ErrorKind),
}

/// A writer that takes at most `most` bytes at a time.
struct Tape {
    text: Vec<u8>,
    most: usize,
    fault: Option<Fault>,
}

impl Write for Tape {
    fn write(&mut self, bytes: &[u8]) -> io::Result<usize> {
        match self.fault {
            Some(Fault::Write(after, kind)) if after == self.text.len() => {
                self.fault = None;
                kind.map_or(Ok(0), |kind| Err(kind.into()))
            }
            _ => self.text.write(&bytes[..bytes.len().min(self.most)]),
        }
    }

    fn flush(&mut self) -> io::Result<()> {
        match self.fault {
            Some(Fault::Flush(kind)) => {
                self.fault = None;
                Err(kind.into())
            }
            _ => Ok(()),
        }
    }
}

/// The console of a writer with a fault, and the status of the words over it.
fn over(words: &[&str], most: usize, fault: Option<Fault>) -> (Console<Tape>, u8) {
    let mut out = Console::new(Tape {
        text: Vec::new(),
        most,
        fault,
    });
    let status = run(words, &mut out);
    (out, status)
}

fn check_fails(words: &[&str], most: usize, fault: Fault, written: &str) {
    let (mut out, status) = over(words, most, Some(fault));
    assert_eq!(status, 4, "{words:?} {most} {fault:?}");
    assert!(out.put(b"").is_none() && out.put(b"more").is_none() && !out.finish());
    assert_eq!(
        out.into_inner().text,
        written.as_bytes(),
        "{words:?} {most} {fault:?}"
    );
}

#[test]
fn writers_that_fail() {
    for (words, line) in ROWS {
        for most in [line.len(), line.len().div_ceil(2), 1] {
            for end in (0..line.len()).step_by(most) {
                for kind in [Some(ErrorKind::Other), Some(ErrorKind::Interrupted), None] {
                    check_fails(words, most, Fault::Write(end, kind), &line[..end]);
                }
            }
            check_fails(words, most, Fault::Flush(ErrorKind::Other), line);
        }
    }
}

#[test]
fn writers_that_take_all() {
    for ((words, line), status) in ROWS.into_iter().zip(0..) {
        for most in [line.len(), 1] {
            let (mut out, found) = over(words, most, None);
            assert!(found == status && out.finish() && out.put(b"") == Some(0));
            assert_eq!(out.into_inner().text, line.as_bytes());
        }
    }
}
