//! The answers that the lines on whole numbers and binary64 take in together (docs/CENSUS.md, "Whole numbers and
//! binary64"), and the two parts on refusals, 26 and 27; written from the papers alone.

use crate::census::digest::Digest;
use crate::census::runs::single_line;
use crate::numbers::binary64::{binary64_in, binary64_out, with_sign, Binary64, INFINITY, NAN};
use crate::numbers::whole::{whole_in, whole_out_nearest, whole_out_strict};
use crate::words::refusals::{count_of_words, Refusal, BAD_WIDTHS};

/// "The ways in of a whole number."
pub fn take_whole_in(digest: &mut Digest, width: u32, whole: i64) {
    digest.take_answers(whole_in(width, whole));
}

/// "The ways in of a binary64 number."
pub fn take_binary64_in(digest: &mut Digest, width: u32, pattern: u64) {
    digest.take_answers(binary64_in(width, pattern));
}

/// "q with both signs", the ways in.
pub fn take_binary64_with_both_signs(digest: &mut Digest, width: u32, pattern: u64) {
    take_binary64_in(digest, width, with_sign(false, pattern));
    take_binary64_in(digest, width, with_sign(true, pattern));
}

pub fn take_binary64_out(digest: &mut Digest, width: u32, word: u64) {
    match binary64_out(width, word) {
        Err(refusal) => digest.take_refusal(refusal),
        Ok(Binary64::NoReading) => digest.take(1),
        Ok(Binary64::Number(pattern)) => {
            digest.take(0);
            digest.take(pattern);
        }
    }
}

/// "The ways out of a word."
pub fn take_ways_out(digest: &mut Digest, width: u32, word: u64) {
    digest.take_signed_number(whole_out_nearest(width, word));
    digest.take_signed_number(whole_out_strict(width, word));
    take_binary64_out(digest, width, word);
}

/// "a with its negation": the words a mod 2^n and -a mod 2^n.
pub fn with_negation(width: u32, a: i128) -> [u64; 2] {
    [a, -a].map(|a| a.rem_euclid(count_of_words(width) as i128) as u64)
}

/// "The round of z."
pub fn take_round(digest: &mut Digest, width: u32, whole: i64) {
    take_whole_in(digest, width, whole);
    let answer = whole_in(width, whole).rounded.expect("every whole number can be written rounded");
    take_ways_out(digest, width, answer.word);
}

pub fn push_refusals(lines: &mut Vec<String>) {
    unnumbered_lines(lines);
    unread_lines(lines);
}

/// Part 26: widths that are refused.
fn unnumbered_lines(lines: &mut Vec<String>) {
    for width in BAD_WIDTHS {
        let mut digest = Digest::new();
        for whole in [0, 1, i64::MAX, i64::MIN] {
            assert!(whole_in(width, whole).rounded == Err(Refusal::Width));
            take_whole_in(&mut digest, width, whole);
        }
        for pattern in [0, 1023 << 52, INFINITY] {
            take_binary64_with_both_signs(&mut digest, width, pattern);
        }
        take_binary64_in(&mut digest, width, NAN);
        for word in [0, 1, 1 << 63, u64::MAX] {
            assert!(whole_out_nearest(width, word) == Err(Refusal::Width));
            take_ways_out(&mut digest, width, word);
        }
        lines.push(single_line("unnumbered", width, &digest));
    }
}

/// Part 27: words with a bit set at or above their width.
fn unread_lines(lines: &mut Vec<String>) {
    for width in 2..=63 {
        let mut digest = Digest::new();
        let lowest_stray: u64 = 1 << width;
        for word in [lowest_stray, lowest_stray + 1, lowest_stray + lowest_stray / 2, 1 << 63, u64::MAX] {
            assert!(whole_out_nearest(width, word) == Err(Refusal::Stray));
            take_ways_out(&mut digest, width, word);
        }
        lines.push(single_line("unread", width, &digest));
    }
}
