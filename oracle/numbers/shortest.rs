//! The shortest width of a whole number (paper 02, Wish 9); written from the papers alone.

use crate::numbers::whole::whole_in;
use crate::words::refusals::Refusal;

/// "Answer the least width from 2 to 64 at which it has a word." "INEXACT when no width up to 64 has it." The widths
/// are tried in their order.
pub fn shortest_width(whole: i64) -> Result<u32, Refusal> {
    (2..=64).find(|&width| has_word(width, whole)).ok_or(Refusal::Inexact)
}

/// Strict writing looks for "the word with exactly that value".
fn has_word(width: u32, whole: i64) -> bool {
    whole_in(width, whole).strict.is_ok()
}
