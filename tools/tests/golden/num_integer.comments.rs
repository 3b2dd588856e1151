//! The comments of functions: sentences of examples become a section before the others, a section of examples gets its imports, a
//! paragraph of Rattle and the words for plain Rust go, errors stand last, and no line ends within code.

/// Returns the half.
///
/// # Examples
///
/// ```
/// use cellarcove::half;
///
/// assert_eq!(half(4), 2);
/// assert_eq!(half(6), 3);
/// ```
///
/// # Panics
///
/// If `x` is odd.
#[must_use]
pub fn half(x: u64) -> u64 {
    x
}

/// Halves the number.
///
/// # Examples
///
/// ```
/// use cellarcove::halve;
///
/// let mut x = 4;
///
/// halve(&mut x);
/// ```
pub fn halve(x: &mut u64) {}

/// Returns the half. The number has to be even. If it is odd, the half is rounded down, as in
/// `x / 2`.
fn rounded_half(x: u64) -> u64 {
    x
}

/// Returns the half.
///
/// # Panics
///
/// If the number is 0.
///
/// # Errors
///
/// - [`Odd`] if the number
///   is odd.
pub fn checked_half(x: u64) -> Result<u64, Odd> {
    x
}
