//! The lines on reading (docs/CENSUS.md, parts 1 to 6); written from the papers alone.

use crate::census::digest::Digest;
use crate::census::runs::{push_runs, single_line, RUN};
use crate::words::reading::{compare, negate, read};
use crate::words::refusals::{count_of_words, make_width, stray_words, Refusal, BAD_WIDTHS};
use crate::words::sequence::Sequence;
use crate::words::widths::{exact_count_limit, largest_word, nar_word, smallest_word};

pub fn push(lines: &mut Vec<String>) {
    width_lines(lines);
    every_word_lines(lines);
    chosen_word_lines(lines);
    edge_lines(lines);
    refused_lines(lines);
    stray_lines(lines);
}

/// "The facts of the words a and b at width n."
fn take_facts(digest: &mut Digest, width: u32, a: u64, b: u64) {
    let neighbour = ((u128::from(a) + 1) % count_of_words(width)) as u64;
    digest.take_reading(read(width, a));
    digest.take_number(negate(width, a));
    digest.take_signed_number(compare(width, a, neighbour));
    digest.take_signed_number(compare(width, a, b));
}

/// Part 1: the four numbers that belong to each width.
fn width_lines(lines: &mut Vec<String>) {
    for width in 2..=64 {
        let largest = largest_word(width).unwrap();
        let smallest = smallest_word(width).unwrap();
        let nar = nar_word(width).unwrap();
        let limit = exact_count_limit(width).unwrap();
        lines.push(format!("width {width} {largest} {smallest} {nar} {limit}"));
    }
}

/// Part 2: every word of the widths 2 to 16.
fn every_word_lines(lines: &mut Vec<String>) {
    for width in 2..=16 {
        let mut sequence = Sequence::new(width);
        push_runs(lines, ("word", width), 0..=count_of_words(width) as u64 - 1, RUN, |digest, a| {
            let b = sequence.next_word(width);
            take_facts(digest, width, a, b);
        });
    }
}

/// Part 3: 4,096 pairs of words of each width from 17 to 64.
fn chosen_word_lines(lines: &mut Vec<String>) {
    for width in 17..=64 {
        let mut sequence = Sequence::new(width);
        push_runs(lines, ("word", width), 0..=4095, RUN, |digest, _place| {
            let a = sequence.next_word(width);
            let b = sequence.next_word(width);
            take_facts(digest, width, a, b);
        });
    }
}

/// Part 4: the words at and just below the powers of two.
fn edge_lines(lines: &mut Vec<String>) {
    for width in 2..=64 {
        let mut digest = Digest::new();
        for k in 0..width {
            let power: u64 = 1 << k;
            take_facts(&mut digest, width, power, power - 1);
            take_facts(&mut digest, width, power - 1, power);
        }
        lines.push(single_line("edge", width, &digest));
    }
}

/// Part 5: widths that are refused.
fn refused_lines(lines: &mut Vec<String>) {
    for width in BAD_WIDTHS {
        let mut digest = Digest::new();
        digest.take_number(make_width(width).map(u64::from));
        digest.take_number(largest_word(width));
        digest.take_number(smallest_word(width));
        digest.take_number(nar_word(width));
        digest.take_number(exact_count_limit(width));
        for a in [0, 1, 1 << 63, u64::MAX] {
            assert!(read(width, a) == Err(Refusal::Width));
            digest.take_reading(read(width, a));
            digest.take_number(negate(width, a));
            digest.take_signed_number(compare(width, a, a));
        }
        lines.push(single_line("refused", width, &digest));
    }
}

/// Part 6: words with a bit set at or above their width.
fn stray_lines(lines: &mut Vec<String>) {
    for width in 2..=63 {
        let mut digest = Digest::new();
        for a in stray_words(width) {
            assert!(read(width, a) == Err(Refusal::Stray));
            digest.take_reading(read(width, a));
            digest.take_number(negate(width, a));
            digest.take_signed_number(compare(width, a, 1));
            digest.take_signed_number(compare(width, 1, a));
            digest.take_signed_number(compare(width, a, a));
        }
        lines.push(single_line("stray", width, &digest));
    }
}
