//! Pseudo-random numbers and words (docs/CENSUS.md, "Digest and sequence"); written from the papers alone.

use crate::words::refusals::count_of_words;

/// D0 of the census.
pub const D0: u64 = 0x9e37_79b9_7f4a_7c15;

pub fn scramble(mut x: u64) -> u64 {
    x ^= x << 13;
    x ^= x >> 7;
    x ^= x << 17;
    x
}

/// The pseudo-random sequence; it holds the state.
pub struct Sequence(u64);

impl Sequence {
    pub fn new(start: u32) -> Sequence {
        Sequence(D0.wrapping_add(u64::from(start)))
    }

    pub fn next_number(&mut self) -> u64 {
        self.0 = scramble(self.0);
        self.0
    }

    /// The low n bits of the next number.
    pub fn next_word(&mut self, width: u32) -> u64 {
        low_bits(self.next_number(), width)
    }
}

/// The low n bits of a number.
pub fn low_bits(number: u64, width: u32) -> u64 {
    (u128::from(number) % count_of_words(width)) as u64
}
