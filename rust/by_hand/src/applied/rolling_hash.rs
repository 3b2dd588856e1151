//! Traits that the source does not derive.

#[derive(PartialEq, Eq, Hash)]
struct RollingHash;
