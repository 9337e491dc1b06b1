//! Moving a word to another width, rounded and strict, with the refusals; written from the papers alone.

use crate::words::refusals::{accept_word, make_width, Refusal};
use crate::words::values::{value, Value};
use crate::words::widths::nar_word;
use crate::writing::answers::{write_number, Answers};
use crate::writing::offers::fine;

/// "A move from width a to width b reads at a and writes at b, rounded or strict. NaR gives NaR", and is exact.
pub fn move_word(from: u32, to: u32, word: u64) -> Answers {
    match value_to_move(from, to, word) {
        Err(refusal) => Answers::alike(Err(refusal)),
        Ok(Value::NaR) => Answers::alike(nar_word(to)),
        Ok(Value::Number(number)) => write_number(to, &fine(&number)),
    }
}

/// The value of the word, or the refusal that comes first: "WIDTH (source, then target), ROOM, STRAY". There is no ROOM
/// here, as one word is moved and no slice is lent.
fn value_to_move(from: u32, to: u32, word: u64) -> Result<Value, Refusal> {
    make_width(from)?;
    make_width(to)?;
    accept_word(from, word)?;
    Ok(value(from, word))
}
