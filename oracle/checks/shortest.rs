//! Checks of paper 02's Wish 9, the shortest width of a whole number; written from the papers alone.
//!
//! An answer is held against the words of all widths, against document 004, Proposition 4, with the wish's correction,
//! and against the exact-count limits. How it was found plays no part here.

use crate::census::shortest::{chosen_wholes, wholes_of_words};
use crate::checks::sayings::check_said;
use crate::exact::number::Whole;
use crate::numbers::binary64::{finest, FINEST_SCALE};
use crate::numbers::shortest::shortest_width;
use crate::numbers::whole::whole_in;
use crate::words::refusals::Refusal;
use crate::words::sequence::Sequence;
use crate::words::values::small_power_of_two;
use crate::words::widths::{exact_count_limit, floor_log2};
use crate::writing::nearest::value_of;
use std::collections::BTreeMap;

pub fn check() {
    check_figures();
    check_every_word();
    for size in (1..=SMALL).chain(chosen_sizes()) {
        check_lengths_and_limits(size);
    }
    for size in (0..=65).chain(chosen_sizes()) {
        [size, -size].into_iter().for_each(check_widths);
    }
    // It has no negation among the signed 64-bit numbers.
    check_length(i64::MIN, shortest_width(i64::MIN));
    check_widths(i64::MIN);
}

/// Up to this size every whole number is tried.
const SMALL: i64 = 2049;

/// The greatest number, the powers of two up to 2^62 with the numbers beside them, and draws like those of part 55. As
/// every exact-count limit is a power of two, the limits and their neighbours are among them.
fn chosen_sizes() -> Vec<i64> {
    let mut sequence = Sequence::new(9300);
    let draws = (0..64).flat_map(|_place| chosen_wholes(&mut sequence));
    let beside_powers = (1..=62).flat_map(|k| small_power_of_two(k) - 2..=small_power_of_two(k) + 2);
    [i64::MAX].into_iter().chain(beside_powers).chain(draws).filter(|&size| size != 0).collect()
}

/// The wish's own figures, and some that follow from the figures of paper 01.
fn check_figures() {
    let figures = [
        // "Zero needs 2." "Width 2: 01 is 1, 11 is -1."
        (0, Ok(2)),
        (1, Ok(2)),
        (-1, Ok(2)),
        // "Limits: 1 at widths 2, 3 and 4; 2 at 5; 8 at 8." 9 "needs 10".
        (2, Ok(5)),
        (9, Ok(10)),
        (-9, Ok(10)),
        // "512 at 16; 2^24 at 32; 2^55 at 64."
        (513, Ok(17)),
        ((1 << 24) + 1, Ok(33)),
        ((1 << 55) + 1, Err(Refusal::Inexact)),
        // Width 3 has 2^15, and from width 4 up there is a word of value -2^63.
        (1 << 15, Ok(3)),
        (i64::MIN, Ok(4)),
        (i64::MAX, Err(Refusal::Inexact)),
    ];
    for (whole, expected) in figures {
        assert!(shortest_width(whole) == expected, "the shortest width of {whole}");
    }
    // "As printed it gives 9 for the number 9, which needs 10."
    assert!(length(9, Correction::AsPrinted) == 9 && length(9, Correction::OfTheWish) == 10);
}

/// The other way round: all words of the widths 2 to 16 are read, the narrowest width first. A whole number needs the
/// width at which it is met first, and those that aren't met need more than 16.
fn check_every_word() {
    let mut first_met = BTreeMap::new();
    for width in 2..=16 {
        for whole in wholes_of_words(width) {
            first_met.entry(whole).or_insert(width);
        }
    }
    for (&whole, &width) in &first_met {
        assert!(shortest_width(whole) == Ok(width), "{whole} is met at width {width} first");
    }
    for whole in (-SMALL..=SMALL).filter(|whole| !first_met.contains_key(whole)) {
        assert!(!needs_at_most(16, shortest_width(whole)), "no word of 16 bits or fewer is {whole}");
    }
}

fn needs_at_most(width: u32, answer: Result<u32, Refusal>) -> bool {
    answer.is_ok_and(|shortest| shortest <= width)
}

/// "Prove that no smaller width has one": there the number lies between two words or past an end. At the answered width
/// and at every greater one a word has the value, the same word with zeros appended: "Going wider never changes a
/// value." Where no width has one, all of them are too small.
fn check_widths(whole: i64) {
    let number = Whole::from_signed(whole).times_power_of_two(FINEST_SCALE);
    let answer = shortest_width(whole);
    for width in (2..=64).filter(|&width| !needs_at_most(width, answer)) {
        let answers = whole_in(width, whole);
        check_said(width, &number, answers);
        assert!(answers.strict == Err(Refusal::Inexact), "{whole} has a word of width {width}");
    }
    if let Ok(shortest) = answer {
        let word = whole_in(shortest, whole).strict.expect("the shortest width has a word").word;
        for width in shortest..=64 {
            let longer = word << (width - shortest);
            assert!(finest(&value_of(width, longer)) == number, "{whole} has no word of width {width}");
        }
    }
}

/// Both signs of a number have the same answer, since "negation ... negates every other value", and it agrees with the
/// length and with the limits.
fn check_lengths_and_limits(size: i64) {
    let answer = shortest_width(size);
    assert!(shortest_width(-size) == answer, "{size} and its negation");
    check_length(size, answer);
    check_length(-size, answer);
    check_limits(size, answer);
}

/// "Every whole number from -2^v to 2^v has a word; 2^v + 1 has none."
fn check_limits(size: i64, answer: Result<u32, Refusal>) {
    for width in 2..=64 {
        let limit = exact_count_limit(width).unwrap() as i64;
        let fits = needs_at_most(width, answer);
        assert!(fits || size > limit, "{size} is not above the limit of width {width}");
        assert!(!fits || size != limit + 1, "{size} comes after the limit of width {width}");
    }
}

/// "For nonzero numbers the answer agrees with the length formula in Proposition 4 of document 004, with one
/// correction." "Numbers whose corrected length is above 64 are those refused."
fn check_length(whole: i64, answer: Result<u32, Refusal>) {
    let corrected = length(whole, Correction::OfTheWish);
    let expected = if corrected > 64 { Err(Refusal::Inexact) } else { Ok(corrected as u32) };
    assert!(answer == expected, "{whole} has the corrected length {corrected}");
}

/// When the last reduction of the length is made, beside v being a power of two.
#[derive(PartialEq, Eq)]
enum Correction {
    /// Always.
    AsPrinted,
    /// "Only where the number's size is itself a power of two (w = v - 1)."
    OfTheWish,
}

/// The length of Proposition 4, in its letters: v is how many bits |m| has, and w how many zeros they end in. Equation
/// (11) begins with floor(4 + v + log2(v) - w), by the proof, equation (44); all but the logarithm is whole.
fn length(m: i64, correction: Correction) -> i64 {
    let (v, w) = (Whole::from_signed(m).count_of_bits(), Whole::from_signed(m).count_of_twos());
    let floor_log2_v = floor_log2(v);
    let mut length = 4 + v + floor_log2_v - w;
    if w == v - 1 {
        length -= most_twos(floor_log2_v, v - small_power_of_two(floor_log2_v));
    }
    let v_is_power_of_two = v == small_power_of_two(floor_log2_v);
    if v_is_power_of_two && (w == v - 1 || correction == Correction::AsPrinted) {
        length -= most_twos(3, floor_log2_v);
    }
    length
}

/// The greatest i from 0 to `most` with 2^i dividing the number. Zero is divided by all of them.
fn most_twos(most: i64, number: i64) -> i64 {
    (0..=most).rfind(|&i| number % small_power_of_two(i) == 0).expect("1 divides every number")
}
