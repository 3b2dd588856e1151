//! The trait of errors. Before Rust 1.81 only `std` has it. There without the feature `std`, the errors of the crate implement a trait
//! that no other crate can see.

#[cfg(has_core_error)]
pub(crate) use core::error::Error;
#[cfg(all(feature = "std", not(has_core_error)))]
pub(crate) use std::error::Error;
#[cfg(not(any(feature = "std", has_core_error)))]
pub(crate) use Unseen as Error;

#[cfg(not(any(feature = "std", has_core_error)))]
#[allow(dead_code)] // it is there to be implemented
pub(crate) trait Unseen {}
