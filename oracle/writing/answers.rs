//! Writing a value as a word, rounded and strict, with the refusals; written from the papers alone.

use crate::exact::number::Whole;
use crate::words::refusals::{make_width, Refusal};
use crate::writing::nearest::{nearest_word, value_of};
use crate::writing::offers::Offer;
use crate::writing::sayings::{saying_of, Saying};

/// The answer of writing or moving, where it isn't refused: the word, and what is said beside it.
#[derive(Clone, Copy, Debug, PartialEq, Eq)]
pub struct Answer {
    pub word: u64,
    pub saying: Saying,
}

impl Answer {
    pub fn exact(word: u64) -> Answer {
        Answer { word, saying: Saying::Exact }
    }
}

/// The two answers to one question: that of rounded writing or moving, and that of strict.
#[derive(Clone, Copy, Debug, PartialEq, Eq)]
pub struct Answers {
    pub rounded: Result<Answer, Refusal>,
    pub strict: Result<Answer, Refusal>,
}

impl Answers {
    /// Where rounded and strict do not differ: a refusal that both give, or a word that is exact. "NaR and zero are
    /// exact" (paper 02, Wish 4).
    pub fn alike(answer: Result<u64, Refusal>) -> Answers {
        let answer = answer.map(Answer::exact);
        Answers { rounded: answer, strict: answer }
    }
}

/// Writes an offered value at a width.
pub fn write(width: u32, offer: &Offer) -> Answers {
    match make_width(width) {
        Err(refusal) => Answers::alike(Err(refusal)),
        Ok(width) => write_number(width, &offer.number()),
    }
}

/// Writes a number, held times 2^400, at a good width.
///
/// Paper 01 has three cases for a nonzero size: at or above the largest, at or below the smallest, and all else. In all
/// three the answer is the nearest of the nonzero words of that sign. So there is only one case here;
/// checks/writing.rs tries the ends.
pub fn write_number(width: u32, number: &Whole) -> Answers {
    if number.is_zero() {
        // "Zero gives the zero word", and that word has exactly this value.
        return Answers::alike(Ok(0));
    }
    let word = nearest_word(width, number);
    let value = value_of(width, word);
    assert!(!value.is_zero() && value.is_negative() == number.is_negative());
    let rounded = Answer { word, saying: saying_of(width, &value, number) };
    // Strict: "The word with exactly that value, or INEXACT if there is none." A word with exactly that value has
    // distance 0 and every other word has more. So if there is one, it is the nearest.
    let strict = if value == *number { Ok(Answer::exact(word)) } else { Err(Refusal::Inexact) };
    Answers { rounded: Ok(rounded), strict }
}
