//! Checks of the binary64 numbers halfway between two words; written from the papers alone.

use crate::census::binary64::{pattern_of_midpoint, pattern_of_word};
use crate::checks::writing::between;
use crate::numbers::binary64::binary64_in;
use crate::words::sequence::Sequence;
use crate::words::widths::largest_word;

pub fn check() {
    check_midpoint_rule();
    check_midpoints_in();
}

/// The first of two neighbouring positive words: all of them up to width 12, and some at every other width.
pub fn first_neighbours(width: u32) -> Vec<u64> {
    let count = largest_word(width).unwrap() - 1;
    if width <= 12 {
        return (1..=count).collect();
    }
    let mut sequence = Sequence::new(8500 + width);
    (0..64).map(|_place| 1 + sequence.next_number() % count).collect()
}

/// docs/CENSUS.md, part 23, finds midpoints with 64-bit numbers. That rule gives what the exact values give.
fn check_midpoint_rule() {
    for width in 3..=64 {
        for a in first_neighbours(width) {
            assert!(midpoint_by_rule(width, a) == pattern_of_midpoint(width, a), "after {a} of width {width}");
        }
    }
}

fn midpoint_by_rule(width: u32, a: u64) -> Option<u64> {
    let (p, q) = (pattern_of_word(width, a), pattern_of_word(width, a + 1));
    let g = q - p;
    if g < 2 {
        return None;
    }
    if g <= 1 << 52 {
        assert!(g % 2 == 0);
        return Some(p + g / 2);
    }
    assert!(p % (1 << 52) == 0 && q % (1 << 52) == 0, "both values are powers of two");
    let u = g >> 52;
    (u <= 52).then(|| q - (1 << 52) + (1 << (52 - u)))
}

/// A number halfway goes in as the even word, and the numbers beside it as the word on their side.
fn check_midpoints_in() {
    for width in 3..=64 {
        for a in first_neighbours(width) {
            if let Some(pattern) = pattern_of_midpoint(width, a) {
                let rounded = |pattern: u64| binary64_in(width, pattern).rounded.unwrap().word;
                assert!(binary64_in(width, pattern) == between(a, a + a % 2));
                assert!(rounded(pattern - 1) == a && rounded(pattern + 1) == a + 1);
            }
        }
    }
}
