//! The checksum. `crates/replay/src/tests/checksum.rt` computes the same one.

use crate::inputs::Whole;

#[derive(Clone, Copy, Debug)]
pub struct Checksum(pub u64);

impl Checksum {
    fn with_word(self, word: u64) -> Checksum {
        Checksum((self.0.rotate_left(5) ^ word).wrapping_mul(0x517CC1B727220A95))
    }

    pub fn with(self, (negative, magnitude): Whole) -> Checksum {
        self.with_word((magnitude & 0xFFFF_FFFF_FFFF_FFFF) as u64)
            .with_word((magnitude >> 64) as u64)
            .with_word(u64::from(negative))
    }

    pub fn with_each(self, numbers: &[Whole]) -> Checksum {
        numbers.iter().fold(self, |sum, number| sum.with(*number))
    }
}
