//! The lines on binary64 in (docs/CENSUS.md, parts 23 to 25); written from the papers alone.

use crate::census::digest::Digest;
use crate::census::runs::{push_runs, single_line, RUN};
use crate::census::ways::{take_binary64_in, take_binary64_with_both_signs};
use crate::numbers::binary64::{binary64_out, finest, pattern_of, pattern_of_size, with_sign, Binary64, INFINITY, NAN};
use crate::words::sequence::{low_bits, Sequence};
use crate::words::widths::{largest_word, smallest_word};
use crate::writing::around::midpoint_above;

pub fn push(lines: &mut Vec<String>) {
    binary_lines(lines);
    twos_lines(lines);
    extreme_lines(lines);
}

/// Part 23: 4,096 draws at every width.
fn binary_lines(lines: &mut Vec<String>) {
    for width in 2..=64 {
        let mut sequence = Sequence::new(7000 + width);
        push_runs(lines, ("binary", width), 0..=4095, RUN, |digest, _place| {
            for pattern in chosen_patterns(&mut sequence, width) {
                take_binary64_in(digest, width, pattern);
            }
        });
    }
}

/// One draw of part 23.
pub fn chosen_patterns(sequence: &mut Sequence, width: u32) -> Vec<u64> {
    let [x1, x2, x3] = [(); 3].map(|()| sequence.next_number());
    let minus = (x1 / 32) % 2 == 1;
    let any_exponent = x3 % 2047;
    let near_exponent = 766 + x3 % 514;
    let fraction = low_bits(x2, 52);
    let without_lowest = fraction - low_bits(fraction, ((x3 >> 32) % 53) as u32);
    match x1 % 32 {
        0 => vec![NAN],
        1 => vec![with_sign(minus, INFINITY)],
        2 => vec![with_sign(minus, 0)],
        3 => vec![pattern_of(minus, 0, fraction >> (x3 % 52))],
        4..=7 => vec![pattern_of(minus, any_exponent, fraction)],
        8..=15 => vec![pattern_of(minus, near_exponent, fraction)],
        16..=19 => vec![pattern_of(minus, near_exponent, without_lowest)],
        20..=23 => beside(chosen_value(width, x2), minus),
        _ => beside(chosen_midpoint(width, x2).unwrap_or(chosen_value(width, x2)), minus),
    }
}

/// q - 1, q and q + 1 with a sign.
fn beside(pattern: u64, minus: bool) -> Vec<u64> {
    (pattern - 1..=pattern + 1).map(|near| with_sign(minus, near)).collect()
}

/// The pattern of a positive word out as binary64; x chooses the word.
fn chosen_value(width: u32, x: u64) -> u64 {
    pattern_of_word(width, 1 + x % largest_word(width).unwrap())
}

/// The pattern of a positive word out as binary64.
pub fn pattern_of_word(width: u32, word: u64) -> u64 {
    match binary64_out(width, word) {
        Ok(Binary64::Number(pattern)) => pattern,
        other => panic!("a positive word is a number, not {other:?}"),
    }
}

/// The pattern of the midpoint between two neighbouring positive words, if a binary64 number is that midpoint; x
/// chooses the words. The positive words are 1 to 2^(n-1) - 1, so the first of two neighbours is one of 1 to
/// 2^(n-1) - 2.
fn chosen_midpoint(width: u32, x: u64) -> Option<u64> {
    if width == 2 {
        return None;
    }
    pattern_of_midpoint(width, 1 + x % (largest_word(width).unwrap() - 1))
}

/// The pattern of the midpoint between the positive words a and a + 1, if a binary64 number is that midpoint.
pub fn pattern_of_midpoint(width: u32, a: u64) -> Option<u64> {
    pattern_of_size(&finest(&midpoint_above(width, a)))
}

/// Part 24: the powers of two and the numbers beside them.
fn twos_lines(lines: &mut Vec<String>) {
    for width in (2..=12).chain(56..=60) {
        let mut digest = Digest::new();
        for c in -257..=256_i64 {
            let power = pattern_of(false, (c + 1023) as u64, 0);
            for near in power - 1..=power + 1 {
                take_binary64_with_both_signs(&mut digest, width, near);
            }
        }
        lines.push(single_line("twos", width, &digest));
    }
}

/// Part 25: the ends of the binary64 numbers and the ends of every width.
fn extreme_lines(lines: &mut Vec<String>) {
    let greatest_subnormal = (1 << 52) - 1;
    for width in 2..=64 {
        let mut digest = Digest::new();
        for pattern in [0, 1, greatest_subnormal, greatest_subnormal + 1, INFINITY - 1, INFINITY] {
            take_binary64_with_both_signs(&mut digest, width, pattern);
        }
        take_binary64_in(&mut digest, width, NAN);
        for word in [smallest_word(width).unwrap(), largest_word(width).unwrap()] {
            let end = pattern_of_word(width, word);
            for near in end - 1..=end + 1 {
                take_binary64_with_both_signs(&mut digest, width, near);
            }
        }
        lines.push(single_line("extreme", width, &digest));
    }
}
