//! What a stored integer has in plain Rust alone.

use core::fmt;
use core::hash::{Hash, Hasher};

/// Prints the number.
impl<F: Form> fmt::Debug for Own<F>
where
    F::Number: fmt::Debug,
{
    fn fmt(&self, f: &mut fmt::Formatter<'_>) -> fmt::Result {
        fmt::Debug::fmt(&self.number(), f)
    }
}

impl<F: Form> Hash for Own<F>
where
    F::Number: Hash,
{
    fn hash<H: Hasher>(&self, state: &mut H) {
        self.number().hash(state);
    }
}
