#![no_std]
#![forbid(unsafe_code)]
// Some types are those of contracts alone, and a `Line` has no other form.
#![allow(clippy::extra_unused_type_parameters, clippy::new_without_default)]

// The module `sink` writes bytes by `std::io::Write`. Nothing else is of `std`.
extern crate std;
