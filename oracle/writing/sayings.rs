//! What is said beside a word that was written or moved (paper 02, Wish 4); written from the papers alone.
//!
//! It is found from exact values alone: that of the word, the one offered, and the sizes of the end words. How the word
//! was found plays no part here. All numbers in this file are held times 2^400 (see offers.rs).

use crate::exact::number::Whole;
use crate::words::widths::{largest_word, smallest_word};
use crate::writing::nearest::value_of;
use std::cmp::Ordering;

/// "One of four things: exact, word below the value, word above it (signed), or past the end." The numbers are those of
/// docs/CENSUS.md.
#[derive(Clone, Copy, Debug, PartialEq, Eq)]
pub enum Saying {
    Exact = 0,
    Below = 1,
    Above = 2,
    PastTheEnd = 3,
}

/// What is said where a number was offered and a word of this value was given. "Past the end ... goes before below and
/// above"; it can't meet exact, as no word lies past the end words.
pub fn saying_of(width: u32, value: &Whole, number: &Whole) -> Saying {
    if is_past_the_end(width, &number.size()) {
        return Saying::PastTheEnd;
    }
    match value.cmp(number) {
        Ordering::Less => Saying::Below,
        Ordering::Equal => Saying::Exact,
        Ordering::Greater => Saying::Above,
    }
}

/// "When the size is beyond the largest word or is nonzero and short of the smallest." The size of an end word itself
/// is neither.
fn is_past_the_end(width: u32, size: &Whole) -> bool {
    let least = value_of(width, smallest_word(width).unwrap());
    let greatest = value_of(width, largest_word(width).unwrap());
    *size > greatest || (!size.is_zero() && *size < least)
}
