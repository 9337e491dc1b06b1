//! The lines on words out as whole numbers and as binary64 (docs/CENSUS.md, parts 13 to 17); written from the papers
//! alone.

use crate::census::digest::Digest;
use crate::census::runs::{push_runs, single_line, RUN};
use crate::census::ways::{take_binary64_out, take_ways_out, with_negation};
use crate::words::refusals::count_of_words;
use crate::words::sequence::{low_bits, Sequence};
use crate::words::widths::largest_word;
use crate::writing::answers::write;
use crate::writing::offers::Offer;

pub fn push(lines: &mut Vec<String>) {
    every_word_lines(lines);
    chosen_word_lines(lines);
    edge_lines(lines);
    power_lines(lines);
    full_lines(lines);
}

/// Part 13: every word of the widths 2 to 16.
fn every_word_lines(lines: &mut Vec<String>) {
    for width in 2..=16 {
        push_runs(lines, ("out", width), 0..=count_of_words(width) as u64 - 1, RUN, |digest, word| {
            take_ways_out(digest, width, word);
        });
    }
}

/// Part 14: 4,096 words of each width from 17 to 64.
fn chosen_word_lines(lines: &mut Vec<String>) {
    for width in 17..=64 {
        let mut sequence = Sequence::new(5000 + width);
        push_runs(lines, ("out", width), 0..=4095, RUN, |digest, _place| {
            take_ways_out(digest, width, chosen_word(&mut sequence, width));
        });
    }
}

/// One draw of part 14: half of the words have zeros in their lowest bits, so that whole numbers are among them.
pub fn chosen_word(sequence: &mut Sequence, width: u32) -> u64 {
    let [x1, x2] = [(); 2].map(|()| sequence.next_number());
    let word = low_bits(x1, width);
    let zeros = if x2 % 2 == 1 { (x2 / 2) % u64::from(width) } else { 0 };
    word - low_bits(word, zeros as u32)
}

/// Part 15: words at and beside the powers of two, the word itself being the power.
fn edge_lines(lines: &mut Vec<String>) {
    for width in 17..=64 {
        let mut digest = Digest::new();
        for k in 0..width {
            take_ways_out_from(&mut digest, width, 1 << k);
        }
        lines.push(single_line("outedge", width, &digest));
    }
}

/// Part 16: words at and beside those whose value is a power of two from 1/2 to 2^64.
fn power_lines(lines: &mut Vec<String>) {
    for width in 17..=64 {
        let mut digest = Digest::new();
        for c in -1..=64 {
            take_ways_out_from(&mut digest, width, i128::from(word_of_power(width, c)));
        }
        lines.push(single_line("outpower", width, &digest));
    }
}

/// The ways out of a - 2 to a + 1, each with its negation.
fn take_ways_out_from(digest: &mut Digest, width: u32, a: i128) {
    for near in a - 2..=a + 1 {
        for word in with_negation(width, near) {
            take_ways_out(digest, width, word);
        }
    }
}

/// The word of value 2^c, where there is one.
pub fn word_of_power(width: u32, c: i32) -> u64 {
    write(width, &Offer::plus(1, c)).strict.expect("the power of two has a word").word
}

/// Part 17: words with all fraction bits set, and those that lie beside them and beside the ties before them.
fn full_lines(lines: &mut Vec<String>) {
    for width in 56..=64 {
        push_runs(lines, ("outfull", width), 0..=509, 64, |digest, place| {
            let full = i128::from(last_word_of_binade(width, place as i32 - 255));
            for j in 0..=6 {
                for near in full - (1 << j)..=full - (1 << j) + 2 {
                    for word in with_negation(width, near) {
                        take_binary64_out(digest, width, word);
                    }
                }
            }
        });
    }
}

/// The greatest word whose value is below 2^(c+1).
pub fn last_word_of_binade(width: u32, c: i32) -> u64 {
    if c == 254 {
        // All values are below 2^255.
        largest_word(width).unwrap()
    } else {
        word_of_power(width, c + 1) - 1
    }
}
