//! The lines on writing and moving (docs/CENSUS.md, parts 7 to 12); written from the papers alone.

use crate::census::digest::Digest;
use crate::census::runs::{push_runs, single_line, RUN};
use crate::words::refusals::{count_of_words, stray_words, BAD_WIDTHS};
use crate::words::sequence::{low_bits, Sequence};
use crate::words::widths::largest_word;
use crate::writing::answers::write;
use crate::writing::around::{beside, itself, midpoint_above, Beside, Pair};
use crate::writing::moving::move_word;
use crate::writing::nearest::value_of;
use crate::writing::offers::Offer;

pub fn push(lines: &mut Vec<String>) {
    write_lines(lines);
    past_lines(lines);
    move_lines(lines);
    draw_lines(lines);
    unmoved_lines(lines);
    strayed_lines(lines);
}

/// "The four writings of M, k": plus rounded, plus strict, minus rounded, minus strict.
pub fn take_four_writings(digest: &mut Digest, width: u32, (m, k): Pair) {
    digest.take_answers(write(width, &Offer::plus(m, k)));
    digest.take_answers(write(width, &Offer::minus(m, k)));
}

/// Part 7: the values of all positive words of the widths 2 to 16, and the midpoints between them.
fn write_lines(lines: &mut Vec<String>) {
    for width in 2..=16 {
        push_runs(lines, ("write", width), 1..=largest_word(width).unwrap(), RUN, |digest, a| {
            take_writings_around(digest, width, a);
        });
    }
}

/// The writings of the value of a, and of the midpoint between a and a + 1 and on either side of it.
fn take_writings_around(digest: &mut Digest, width: u32, a: u64) {
    let offer = itself(&value_of(width, a)).expect("the value of a word has a significand below 2^64");
    take_four_writings(digest, width, offer);
    if a == largest_word(width).unwrap() {
        return;
    }
    let midpoint = midpoint_above(width, a);
    if let Some(offer) = itself(&midpoint) {
        take_four_writings(digest, width, offer);
    }
    let Beside { below, above } = beside(&midpoint);
    take_four_writings(digest, width, below);
    take_four_writings(digest, width, above);
}

/// Part 8: zero, and sizes at, near and far past the ends of every width.
fn past_lines(lines: &mut Vec<String>) {
    let exponents =
        [-2147483648, -2147483647, -1000, -308, -307, -256, -255, 0, 191, 192, 254, 255, 1000, 2147483646, 2147483647];
    for width in 2..=64 {
        let mut digest = Digest::new();
        for m in [0, 1, u128::from(u64::MAX)] {
            for k in exponents {
                take_four_writings(&mut digest, width, (m, k));
            }
        }
        lines.push(single_line("past", width, &digest));
    }
}

/// Part 9: the moves of every word of the widths 2 to 16.
fn move_lines(lines: &mut Vec<String>) {
    for from in 2..=16 {
        let targets = target_widths(from);
        push_runs(lines, ("move", from), 0..=count_of_words(from) as u64 - 1, RUN, |digest, word| {
            for &to in &targets {
                digest.take_answers(move_word(from, to, word));
            }
        });
    }
}

fn target_widths(from: u32) -> Vec<u32> {
    if from <= 12 {
        (2..=64).collect()
    } else {
        (2..=20).chain([24, 32, 48, 57, 58, 63, 64]).collect()
    }
}

/// Part 10: 4,096 draws at every width.
fn draw_lines(lines: &mut Vec<String>) {
    for width in 2..=64 {
        let mut sequence = Sequence::new(1000 + width);
        push_runs(lines, ("draw", width), 0..=4095, RUN, |digest, _place| {
            let draw = Draw::next(&mut sequence, width);
            take_four_writings(digest, width, draw.offer);
            digest.take_answers(move_word(width, draw.target, draw.word));
        });
    }
}

/// What five numbers of a sequence choose: an offer to write, and a word to move to a target width.
pub struct Draw {
    pub offer: Pair,
    pub word: u64,
    pub target: u32,
}

impl Draw {
    pub fn next(sequence: &mut Sequence, width: u32) -> Draw {
        let [x1, x2, x3, x4, x5] = [(); 5].map(|()| sequence.next_number());
        let m = u128::from(x1 >> (x2 % 64));
        let k = (x3 % 640) as i32 - 352;
        let word = low_bits(x4, width);
        let target = 2 + (x5 % 63) as u32;
        Draw { offer: (m, k), word, target }
    }
}

/// Part 11: writing at widths that are refused, and moves from them and to them.
fn unmoved_lines(lines: &mut Vec<String>) {
    for width in BAD_WIDTHS {
        let mut digest = Digest::new();
        take_four_writings(&mut digest, width, (1, 0));
        for word in [1, 1 << 63] {
            for (from, to) in [(width, 16), (16, width), (width, width)] {
                digest.take_answers(move_word(from, to, word));
            }
        }
        lines.push(single_line("unmoved", width, &digest));
    }
}

/// Part 12: moves of words with a bit set at or above their width.
fn strayed_lines(lines: &mut Vec<String>) {
    for width in 2..=63 {
        let mut digest = Digest::new();
        for word in stray_words(width) {
            for to in [64, 65, width] {
                digest.take_answers(move_word(width, to, word));
            }
        }
        lines.push(single_line("strayed", width, &digest));
    }
}
