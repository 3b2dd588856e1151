//! The crate [`cellarcove`] under the name `num-integer`, whose names, arguments and features it keeps. It replaces
//! `num-integer` in a whole tree of dependencies.
#![no_std]
#![forbid(unsafe_code)]

pub use cellarcove::*;
