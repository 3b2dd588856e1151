//! What goes: contracts, ghosts, tests, attributes of proofs, and labels that nothing names.

/// A number of a range.
#[derive(Clone, Copy)]
struct Number {
    value: u64,
    limit: u64,
}

/// Numbers with a half.
trait Halved: Copy {
    // The half of 7 is 3.
    fn half(self) -> Self;
}

impl Halved for u64 {
    fn half(self) -> Self {
        self / 2
    }
}

impl Number {
    /// Returns the value.
    const fn value(&self) -> u64 {
        self.value
    }

    fn lowered(mut self, by: u64) -> Self {
        self.value -= 1;
        self
    }
}

fn last(items: &[u64], least: u64) -> u64 {
    let mut i = 0;
    while i < items.len() {
        i += 1;
    }
    'names: loop {
        let next = |x: u64| x + 1;
        if next(items[0]) > 1 {
            break 'names;
        }
    }
    items[0]
}

#[rustfmt::skip]
static ENDS: [u8; 2] = [0, 255];
