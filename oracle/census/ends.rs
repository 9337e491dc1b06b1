//! The lines on both ends of every width (docs/CENSUS.md, part 52); written from the papers alone.

use crate::census::digest::Digest;
use crate::census::runs::single_line;
use crate::census::writing::take_four_writings;
use crate::exact::number::Whole;
use crate::words::widths::{largest_word, smallest_word};
use crate::writing::around::{beside, itself, leading, Beside, Pair};
use crate::writing::nearest::value_of;
use crate::writing::offers::size_of;

/// Part 52: the values of the smallest and of the largest word, and the offers and long values on either side of them.
pub fn push(lines: &mut Vec<String>) {
    for width in 2..=64 {
        let mut digest = Digest::new();
        for end in [smallest_word(width).unwrap(), largest_word(width).unwrap()] {
            for offer in offers_around_end(&value_of(width, end)) {
                take_four_writings(&mut digest, width, offer);
            }
        }
        lines.push(single_line("ends", width, &digest));
    }
}

/// With x the value of an end word: "x itself", "just below x", "just above x"; and then the long values one below it,
/// itself and one above it. Below a power of two the long values lie half as far apart.
pub fn offers_around_end(x: &Whole) -> [Pair; 6] {
    let odd = itself(x).expect("the value of a word has a significand below 2^64");
    let Beside { below, above } = beside(x);
    let (long, k) = leading(x, 128);
    assert!(size_of(long, k) == *x, "the value of a word has no more than 128 significant bits");
    let long_below = if long == 1 << 127 { (u128::MAX, k - 1) } else { (long - 1, k) };
    [odd, below, above, long_below, (long, k), (long + 1, k)]
}
