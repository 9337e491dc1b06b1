//! Moving a column of words to another width (paper 01, "Columns"; how many were exact by paper 02, Wish 4); written
//! from the papers alone.

use crate::words::refusals::{make_width, Refusal};
use crate::words::values::value;
use crate::writing::moving::move_word;

#[derive(Clone, Copy, Debug, PartialEq, Eq)]
pub enum Rule {
    Rounded,
    Strict,
}

/// "A refusal hands back its number, a position where a column has one, and nothing else."
#[derive(Clone, Copy, Debug, PartialEq, Eq)]
pub enum ColumnRefusal {
    /// WIDTH and ROOM belong to no position; nor do RETIRED, COUNT and SIZE, where the column is to be written as a
    /// block.
    OfAll(Refusal),
    /// STRAY and INEXACT belong to a position, counted from 0.
    At(Refusal, usize),
}

/// What a column move answers: "beside the number moved, how many elements were exact".
#[derive(Clone, Copy, Debug, PartialEq, Eq)]
pub struct Moved {
    pub count: usize,
    pub exact: usize,
}

/// "On success the first results are the moved words in order, the others are unchanged, and the number moved is the
/// answer. An element's refusal carries the lowest position that has one, and nothing is written."
///
/// The order is "WIDTH (source, then target), ROOM", and then "each position is tried in that order from STRAY on".
/// `move_word` tries a position so: it gives STRAY before INEXACT.
pub fn move_column(from: u32, to: u32, rule: Rule, words: &[u64], results: &mut [u64]) -> Result<Moved, ColumnRefusal> {
    make_width(from).map_err(ColumnRefusal::OfAll)?;
    make_width(to).map_err(ColumnRefusal::OfAll)?;
    if results.len() < words.len() {
        return Err(ColumnRefusal::OfAll(Refusal::Room));
    }
    let mut moved = Vec::new();
    for (position, &word) in words.iter().enumerate() {
        let answers = move_word(from, to, word);
        let answer = match rule {
            Rule::Rounded => answers.rounded,
            Rule::Strict => answers.strict,
        };
        moved.push(answer.map_err(|refusal| ColumnRefusal::At(refusal, position))?.word);
    }
    // No position has a refusal. Only now is anything written.
    for (position, &word) in moved.iter().enumerate() {
        results[position] = word;
    }
    Ok(Moved { count: moved.len(), exact: count_of_exact((from, to), words, &moved) })
}

/// "That count is defined from the values": at how many places the result has the value of the word there. NaR is the
/// value of NaR. What was said beside the words plays no part here.
fn count_of_exact((from, to): (u32, u32), words: &[u64], moved: &[u64]) -> usize {
    words.iter().zip(moved).filter(|&(&word, &result)| value(to, result) == value(from, word)).count()
}
