//! The lines on words of i and a half, out (docs/CENSUS.md, part 51); written from the papers alone.

use crate::census::digest::Digest;
use crate::census::runs::single_line;
use crate::census::ways::{take_ways_out, with_negation};
use crate::writing::answers::write;
use crate::writing::offers::Offer;

/// Part 51: the halves, where the two whole numbers on either side are equally near, and the words beside them.
pub fn push(lines: &mut Vec<String>) {
    for width in 17..=64 {
        let mut digest = Digest::new();
        for i in wholes_below_halves() {
            let a = i128::from(word_of_half(width, i));
            for near in a - 1..=a + 1 {
                for word in with_negation(width, near) {
                    take_ways_out(&mut digest, width, word);
                }
            }
        }
        lines.push(single_line("half", width, &digest));
    }
}

/// "The whole numbers i": 0 to 63, and then those beside the powers of two from 2^6 to 2^55.
pub fn wholes_below_halves() -> Vec<u128> {
    let beside = |power: u128| power - 2..=power + 1;
    (0..=63).chain((6..=55).flat_map(|k| beside(1 << k))).collect()
}

/// The word that writing i and a half, rounded, gives: of (2 i + 1) * 2^-1.
pub fn word_of_half(width: u32, i: u128) -> u64 {
    write(width, &Offer::plus(2 * i + 1, -1)).rounded.expect("every value can be written rounded").word
}
