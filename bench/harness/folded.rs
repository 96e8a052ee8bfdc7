//! The hasher of the library's hashed maps, so that std's have the same.
use std::hash::Hasher;

/// What the library's map makes of a number: a product of 128 bits, whose halves are joined by exclusive or.
pub struct Folded(u64);

impl Default for Folded {
    fn default() -> Folded {
        Folded(0x243f_6a88_85a3_08d3)
    }
}

impl Hasher for Folded {
    fn finish(&self) -> u64 {
        self.0
    }

    fn write(&mut self, _: &[u8]) {
        unreachable!("all keys are numbers");
    }

    fn write_u64(&mut self, word: u64) {
        // The eight bytes of a number change the multiplier by twice their count.
        let multiplier: u64 = 0x9e37_79b9_7f4a_7c15 ^ 16;
        let product = u128::from(self.0 ^ word) * u128::from(multiplier);
        self.0 = product as u64 ^ (product >> 64) as u64;
    }
}
