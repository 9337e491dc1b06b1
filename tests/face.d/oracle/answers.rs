//! The text of what the independent program answers.
use crate::numbers::binary64::Binary64;
use crate::sheets::columns::ColumnRefusal;
use crate::words::reading::{Kind, Reading};
use crate::words::refusals::Refusal;
use crate::writing::answers::Answer;
use crate::writing::sayings::Saying;

/// The text of a refusal: the papers' number and name.
pub fn refused(refusal: Refusal) -> String {
    format!("refused {} {}", refusal as u32, format!("{refusal:?}").to_uppercase())
}

/// The text of a column's refusal: with its position, where it has one.
pub fn column_refused(refusal: ColumnRefusal) -> String {
    match refusal {
        ColumnRefusal::OfAll(refusal) => refused(refusal),
        ColumnRefusal::At(refusal, position) => format!("{} at {position}", refused(refusal)),
    }
}

/// The text of an answer, or of its refusal.
pub fn text<T>(answer: Result<T, Refusal>, text_of: impl FnOnce(T) -> String) -> String {
    match answer {
        Ok(answer) => text_of(answer),
        Err(refusal) => refused(refusal),
    }
}

/// The text of a word that was neither written nor moved.
pub fn word(answer: Result<u64, Refusal>) -> String {
    text(answer, |word| format!("word {word:#x}"))
}

/// The text of a word that was written or moved: it is followed by its saying.
pub fn word_said(answer: Result<Answer, Refusal>) -> String {
    text(answer, |answer| format!("{} {}", word(Ok(answer.word)), saying(answer.saying)))
}

fn saying(saying: Saying) -> &'static str {
    match saying {
        Saying::Exact => "exact",
        Saying::Below => "below",
        Saying::Above => "above",
        Saying::PastTheEnd => "past_the_end",
    }
}

pub fn sign(minus: bool) -> &'static str {
    if minus {
        "minus"
    } else {
        "plus"
    }
}

/// The text of a reading: what was read, and its own fraction bits, also of zero and NaR.
pub fn reading(answer: Result<Reading, Refusal>) -> String {
    text(answer, |reading| format!("{} {}", kind(reading.kind), reading.own_fraction_bits))
}

fn kind(kind: Kind) -> String {
    match kind {
        Kind::Zero => "zero".to_string(),
        Kind::NaR => "nar".to_string(),
        Kind::Number { minus, h, m, p } => format!("number {} {h} {m} {p}", sign(minus)),
    }
}

pub fn binary64(answer: Result<Binary64, Refusal>) -> String {
    text(answer, |number| match number {
        Binary64::Number(pattern) => format!("number {pattern:#x}"),
        Binary64::NoReading => "nar".to_string(),
    })
}

pub fn row(words: &[u64]) -> String {
    if words.is_empty() {
        return "-".to_string();
    }
    words.iter().map(|word| format!("{word:#x}")).collect::<Vec<_>>().join(",")
}
