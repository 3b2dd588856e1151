#![doc = include_str!("../README.md")]
#![no_std]
#![forbid(unsafe_code)]
#![warn(missing_docs, clippy::missing_errors_doc, clippy::missing_panics_doc)]

const _: () = assert!(usize::BITS >= 32, "`usize` has to have 32 or 64 bits");

#[cfg(all(feature = "std", not(has_core_error)))]
extern crate std;

pub use num_traits;
