//! An empty buffer, as `Default` gives it.

impl Default for Buffer {
    fn default() -> Self {
        Self::new()
    }
}
