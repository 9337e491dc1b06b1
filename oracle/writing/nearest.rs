//! The word nearest to a number, found by exact comparison with the values of words; written from the papers alone.
//!
//! Paper 01, "Writing a value": "the word nearest in value; halfway between two words gives the one whose lowest bit is
//! 0. The words considered are the nonzero non-NaR words of the value's own sign." Nearness is distance, the size of
//! the difference of the two exact values. The bits of a word say nothing here, but for the lowest one at a tie.
//!
//! All numbers in this file are held times 2^400 (see offers.rs).

use crate::exact::number::Whole;
use crate::exact::search::{last_not_above, nearer_place};
use crate::words::refusals::count_of_words;
use crate::words::values::{value, Value};
use crate::words::widths::{largest_word, smallest_word};
use crate::writing::offers::fine;
use std::cmp::Ordering;
use std::sync::LazyLock;

/// The nearest word of a good width to a number that is not zero.
pub fn nearest_word(width: u32, number: &Whole) -> u64 {
    assert!(!number.is_zero(), "zero has a word of its own");
    let word = nearest_positive_word(width, &number.size());
    if !number.is_negative() {
        return word;
    }
    // Negation negates every value (paper 01, "The word"), so the negative words are the positive ones negated, and lie
    // from a negative number just as far as the positive words lie from its size. A word and its negation, 2^n - word,
    // have the same lowest bit. So ties fall alike too.
    (count_of_words(width) - u128::from(word)) as u64
}

/// The nearest positive word to a size. The values of the positive words strictly increase with the word. So of the
/// words whose values are not above the size, the last is nearest, and of the others the first.
fn nearest_positive_word(width: u32, size: &Whole) -> u64 {
    let below = last_word_not_above(width, size);
    if below == 0 {
        // All positive words lie above the size. Zero is not considered, however near it is.
        return smallest_word(width).unwrap();
    }
    if below == largest_word(width).unwrap() {
        // No word lies above the size.
        return below;
    }
    nearer_place(below, size, |word| value_of(width, word))
}

/// The last word, from 0 up to the largest positive one, whose value is not above the size. As zero has the value 0,
/// there always is one.
fn last_word_not_above(width: u32, size: &Whole) -> u64 {
    if width <= WIDEST_TABLE {
        let count_not_above = table(width).partition_point(|value| value <= size);
        return count_not_above as u64 - 1;
    }
    // "Going wider never changes a value": a word with zero bits appended on the right has the same value. So the words
    // on either side of the size at width 16 say between which two words of this width to search. Nothing hangs on it:
    // that these two words do lie on either side is asserted, of the first one in the search.
    let narrow = last_word_not_above(WIDEST_TABLE, size);
    let (first, end) = (narrow << (width - WIDEST_TABLE), (narrow + 1) << (width - WIDEST_TABLE));
    let order = |word: i128| value_of(width, word as u64).cmp(size);
    assert!(end == largest_word(width).unwrap() + 1 || order(i128::from(end)) == Ordering::Greater);
    last_not_above(i128::from(first), i128::from(end), order) as u64
}

/// The value of a word that is not NaR.
pub fn value_of(width: u32, word: u64) -> Whole {
    if width <= WIDEST_TABLE && word <= largest_word(width).unwrap() {
        return table(width)[word as usize].clone();
    }
    worked_out_value(width, word)
}

fn worked_out_value(width: u32, word: u64) -> Whole {
    match value(width, word) {
        Value::NaR => panic!("NaR has no value"),
        Value::Number(number) => fine(&number),
    }
}

/// For widths up to this one the values are worked out once and kept.
const WIDEST_TABLE: u32 = 16;

/// For each width from 2 to 16, the values of its words from 0 to the largest positive one.
static TABLES: LazyLock<Vec<Vec<Whole>>> = LazyLock::new(|| {
    let words = |width| 0..=largest_word(width).unwrap();
    (2..=WIDEST_TABLE).map(|width| words(width).map(|word| worked_out_value(width, word)).collect()).collect()
});

fn table(width: u32) -> &'static [Whole] {
    &TABLES[width as usize - 2]
}
