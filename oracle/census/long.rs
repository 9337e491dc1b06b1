//! The lines on long values (docs/CENSUS.md, parts 41 to 44); written from the papers alone.
//!
//! "The four roundings of X, k" are the four writings of X and k, a long value being an offer with X in the place of M.

use crate::census::digest::Digest;
use crate::census::runs::{push_runs, single_line, RUN};
use crate::census::writing::take_four_writings;
use crate::words::sequence::Sequence;
use crate::words::widths::largest_word;
use crate::writing::around::{leading, midpoint_above, Pair};
use crate::writing::offers::size_of;

pub fn push(lines: &mut Vec<String>) {
    midway_lines(lines);
    chosen_midway_lines(lines);
    long_lines(lines);
    farther_lines(lines);
}

/// "The offers around the midpoint above a": one below it, itself, one above it, and itself with an odd significand.
pub fn offers_around_midpoint(width: u32, a: u64) -> [Pair; 4] {
    let midpoint = midpoint_above(width, a);
    let (x, k) = leading(&midpoint, 128);
    assert!(size_of(x, k) == midpoint, "a midpoint has no more than 128 significant bits");
    let t = x.trailing_zeros();
    [(x - 1, k), (x, k), (x + 1, k), (x >> t, k + t as i32)]
}

/// The four roundings of the offers around the midpoint above a.
fn take_midway(digest: &mut Digest, width: u32, a: u64) {
    for offer in offers_around_midpoint(width, a) {
        take_four_writings(digest, width, offer);
    }
}

/// Part 41: the midpoints between all positive words of the widths 3 to 16.
fn midway_lines(lines: &mut Vec<String>) {
    for width in 3..=16 {
        push_runs(lines, ("midway", width), 1..=largest_word(width).unwrap() - 1, RUN, |digest, a| {
            take_midway(digest, width, a);
        });
    }
}

/// Part 42: 512 midpoints at every width from 17 to 64.
fn chosen_midway_lines(lines: &mut Vec<String>) {
    for width in 17..=64 {
        let mut sequence = Sequence::new(9000 + width);
        push_runs(lines, ("midway", width), 0..=511, RUN, |digest, _place| {
            let a = 1 + sequence.next_number() % (largest_word(width).unwrap() - 1);
            take_midway(digest, width, a);
        });
    }
}

/// Part 43: 1,024 draws at every width.
fn long_lines(lines: &mut Vec<String>) {
    for width in 2..=64 {
        let mut sequence = Sequence::new(8000 + width);
        push_runs(lines, ("long", width), 0..=1023, RUN, |digest, _place| {
            let (x, k) = chosen_long(&mut sequence);
            take_four_writings(digest, width, (x, k));
            take_four_writings(digest, width, (x % (1 << 64), k));
        });
    }
}

/// One draw of part 43: a high number of any length, and a low one, which is zero in half of them.
pub fn chosen_long(sequence: &mut Sequence) -> Pair {
    let [x1, x2, x3, x4] = [(); 4].map(|()| sequence.next_number());
    let high = u128::from(x1 >> (x3 % 64));
    let low = if (x3 >> 8) % 2 == 1 { u128::from(x2) } else { 0 };
    ((high << 64) + low, (x4 % 640) as i32 - 416)
}

/// Part 44: zero, and sizes at, near and far past the ends of every width; and the widths that are refused.
fn farther_lines(lines: &mut Vec<String>) {
    let significands = [0, 1, 1 << 63, 1 << 64, 1 << 127, (1 << 127) + 1, u128::MAX];
    let near = [-1000, -435, -434, -382, -381, -127, -64, 0, 127, 128, 191, 192, 254, 255, 1000];
    let exponents = [&[i32::MIN, i32::MIN + 1][..], &near, &[i32::MAX - 1, i32::MAX]].concat();
    for width in (0..=65).chain([2147483648, 4294967295]) {
        let mut digest = Digest::new();
        for x in significands {
            for &k in &exponents {
                take_four_writings(&mut digest, width, (x, k));
            }
        }
        lines.push(single_line("farther", width, &digest));
    }
}
