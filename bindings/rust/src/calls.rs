//! The library's calls as they are. Each takes any numbers, and refuses a width that isn't 2 to 64 and a word with a bit at or above its
//! width.
//!
//! Where several refusals apply, the first of this order is given. Words: `Width`, `Stray`, `Nar`, `Over`, `Inexact`. Columns:
//! `Width`, `Room`, then position by position, at each `Stray` and `Inexact`. Blocks: `Size`, `Mark`, `Check`, `Width`, `Count`, `Fill`, `Room`.
//! Written blocks: `Width`, `Retired`, `Count`, `Size`, then `Stray` at the lowest position. A refused call leaves its results, or its buffer, as they
//! were.
//!
//! ```
//! use ledusprig::{calls, Refusal, Rule, Saying, Written};
//!
//! assert_eq!(calls::write_whole(16, Rule::Rounded, 515), Ok(Written { word: 0x5A02, saying: Saying::Above }));
//! assert_eq!(calls::move_word(16, 8, Rule::Strict, 0x10000), Err(Refusal::Stray));
//! ```
//
// Safety, for all calls below: the archive's functions take every number and write to no memory but the lent results and the lent buffer. A slice is
// handed over as what it is, its pointer and its length, and the borrow lasts until the call returns; a `&mut` slice overlaps no other.
use crate::answers::{Block, Kind, MovedColumn, Reading, Rule, Saying, Taking, Value, Written};
use crate::face::{self, SayingAnswer, WordAnswer};
use crate::refusals::{ColumnRefusal, Refusal};
use core::cmp::Ordering;

fn word_of(answer: WordAnswer) -> Result<u64, Refusal> {
    Refusal::unless(answer.refusal, answer.word)
}

fn written_of(answer: SayingAnswer) -> Result<Written, Refusal> {
    Refusal::unless(answer.refusal, Written { word: answer.word, saying: Saying::of(answer.saying) })
}

/// The largest positive word of width n, 2^(n - 1) - 1.
pub fn largest(n: u32) -> Result<u64, Refusal> {
    word_of(unsafe { face::takum_largest(n) })
}

/// The smallest positive word of width n, 1.
pub fn smallest(n: u32) -> Result<u64, Refusal> {
    word_of(unsafe { face::takum_smallest(n) })
}

/// The NaR word of width n, 2^(n - 1).
pub fn nar(n: u32) -> Result<u64, Refusal> {
    word_of(unsafe { face::takum_nar(n) })
}

/// The exact-count limit of width n: each whole number from -limit to limit has a word, and limit + 1 has none.
pub fn limit(n: u32) -> Result<u64, Refusal> {
    let answer = unsafe { face::takum_limit(n) };
    Refusal::unless(answer.refusal, answer.limit)
}

/// The value of a word by its parts, and its own fraction bits.
pub fn read(n: u32, word: u64) -> Result<Reading, Refusal> {
    let answer = unsafe { face::takum_read(n, word) };
    let kind = match answer.kind {
        face::KIND_ZERO => Kind::Zero,
        face::KIND_NAR => Kind::Nar,
        _ => Kind::Number { negative: answer.negative, h: answer.h, m: answer.m, p: answer.p },
    };
    Refusal::unless(answer.refusal, Reading { kind, own: answer.own })
}

/// The order of x and y by value. NaR is below everything and equals itself.
pub fn compare(n: u32, x: u64, y: u64) -> Result<Ordering, Refusal> {
    let answer = unsafe { face::takum_compare(n, x, y) };
    Refusal::unless(answer.refusal, answer.order.cmp(&0))
}

/// The word with the negated value; zero and NaR stay.
pub fn negate(n: u32, word: u64) -> Result<u64, Refusal> {
    word_of(unsafe { face::takum_negate(n, word) })
}

/// The word for a value, and which way it went.
pub fn write(n: u32, rule: Rule, value: Value) -> Result<Written, Refusal> {
    written_of(unsafe { face::takum_write(n, rule as u32, value.negative, value.m, value.k) })
}

/// The word of width `to` for the value of a word of width `from`, and which way it went; NaR gives NaR. Going wider never changes a value, so it is
/// always exact.
pub fn move_word(from: u32, to: u32, rule: Rule, word: u64) -> Result<Written, Refusal> {
    written_of(unsafe { face::takum_move(from, to, rule as u32, word) })
}

/// The word for a whole number, and which way it went.
pub fn write_whole(n: u32, rule: Rule, x: i64) -> Result<Written, Refusal> {
    written_of(unsafe { face::takum_write_whole(n, rule as u32, x) })
}

/// The whole number of a word; `Nar` for NaR, `Over` where the whole number nearest to its value falls outside signed 64 bits.
pub fn take_whole(n: u32, taking: Taking, word: u64) -> Result<i64, Refusal> {
    let answer = unsafe { face::takum_take_whole(n, taking as u32, word) };
    Refusal::unless(answer.refusal, answer.whole)
}

/// How wide a word a whole number needs: the least width, from 2 to 64, at which one has exactly that value. Every greater width up to 64 has one too, so
/// [`write_whole`] by the strict rule gives a word from this width on, and refuses below it. `Inexact` where no width up to 64 has one.
///
/// ```
/// use ledusprig::{calls, Refusal};
///
/// // 512 is a power of two, and needs far less than its neighbours
/// assert_eq!([512, 513, 515, -515].map(calls::shortest_width), [Ok(7), Ok(17), Ok(17), Ok(17)]);
/// assert_eq!(calls::shortest_width(i64::MAX), Err(Refusal::Inexact));
/// ```
pub fn shortest_width(x: i64) -> Result<u32, Refusal> {
    let answer = unsafe { face::takum_shortest_width(x) };
    Refusal::unless(answer.refusal, answer.width)
}

/// The word for a binary64 number, and which way it went: NaN and both infinities give NaR, both zeros give zero, and these are exact.
pub fn write_binary64(n: u32, rule: Rule, x: f64) -> Result<Written, Refusal> {
    written_of(unsafe { face::takum_write_binary64(n, rule as u32, x) })
}

/// The binary64 number for a word, none for NaR: exactly its value up to width 57; from 58 on the nearest, ties to even. Zero is positive
/// zero.
pub fn take_binary64(n: u32, word: u64) -> Result<Option<f64>, Refusal> {
    let answer = unsafe { face::takum_take_binary64(n, word) };
    let number = if answer.real { Some(answer.number) } else { None };
    Refusal::unless(answer.refusal, number)
}

/// Moves a column, each of the words as [`move_word`] does: the first results are the moved words, in order, the others stay as they were,
/// and the answer is how many were moved, and how many of these are exact. `Room` where there are fewer results than words.
///
/// ```
/// use ledusprig::{calls, MovedColumn, Rule};
///
/// // 515 goes up to 516, and a void stays one
/// let mut results = [7; 3];
/// assert_eq!(calls::move_column(32, 16, Rule::Rounded, &[0x5A01_8000, 0x8000_0000], &mut results), Ok(MovedColumn { moved: 2, exact: 1 }));
/// assert_eq!(results, [0x5A02, 0x8000, 7]);
/// ```
pub fn move_column(from: u32, to: u32, rule: Rule, words: &[u64], results: &mut [u64]) -> Result<MovedColumn, ColumnRefusal> {
    let (given, room) = (words.len(), results.len());
    let answer = unsafe { face::takum_move_column(from, to, rule as u32, words.as_ptr(), given, results.as_mut_ptr(), room) };
    let moved = MovedColumn { moved: answer.moved, exact: answer.exact };
    Refusal::unless(answer.refusal, moved).map_err(|refusal| ColumnRefusal::at(refusal, answer.position))
}

/// Reads a sheet block of 512 bytes: the first results are its words, in order, and the others stay as they were.
///
/// ```
/// use ledusprig::{calls, Block, BLOCK_SIZE, BLOCK_WORDS};
///
/// let mut block = [0; BLOCK_SIZE];
/// block[..12].copy_from_slice(&[0x54, 16, 2, 0, 1, 0, 0, 0, 0x00, 0x5A, 0x00, 0x80]);
/// block[504..508].copy_from_slice(&0x80026A55_u32.to_le_bytes());
/// block[508..].copy_from_slice(&0x012FA1D5_u32.to_le_bytes());
/// let mut words = [0; BLOCK_WORDS];
/// assert_eq!(calls::read_block(&block, &mut words), Ok(Block { width: 16, number: 1, count: 2 }));
/// assert_eq!(words[..2], [0x5A00, 0x8000]);
/// ```
pub fn read_block(block: &[u8], results: &mut [u64]) -> Result<Block, Refusal> {
    let (size, room) = (block.len(), results.len());
    let answer = unsafe { face::takum_read_block(block.as_ptr(), size, results.as_mut_ptr(), room) };
    Refusal::unless(answer.refusal, Block { width: answer.width, number: answer.number, count: answer.count })
}

/// Writes the sheet block that has this width, 16, 32 or 64, this number and these words: all 512 bytes of the buffer, whatever was in it. It reads back
/// as the same width, number and words, and any block of these widths that can be read is what this makes of its width, number and words. Without words
/// the block has the count 0. Old blocks of width 8 are still read; no more are written.
///
/// `Width` where the width isn't 8, 16, 32 or 64; `Retired` where it is 8, with whatever words and buffer; `Count` where there are more words than it
/// has room for, 248, 124 or 62; `Size` where the buffer isn't 512 bytes; `Stray` with the lowest position that has one.
///
/// ```
/// use ledusprig::{calls, Block, ColumnRefusal, Refusal, BLOCK_SIZE, BLOCK_WORDS};
///
/// let mut block = [0; BLOCK_SIZE];
/// calls::write_block(16, 1, &[0x5A00, 0x8000], &mut block)?;
/// assert_eq!(block[..12], [0x54, 16, 2, 0, 1, 0, 0, 0, 0x00, 0x5A, 0x00, 0x80]);
///
/// let mut words = [0; BLOCK_WORDS];
/// assert_eq!(calls::read_block(&block, &mut words), Ok(Block { width: 16, number: 1, count: 2 }));
/// assert_eq!(words[..2], [0x5A00, 0x8000]);
///
/// let before = block;
/// let refused = calls::write_block(16, 2, &[0x5A00, 0x10000], &mut block).unwrap_err();
/// assert_eq!((refused.refusal, refused.position), (Refusal::Stray, Some(1)));
/// assert_eq!(block, before);
///
/// assert_eq!(calls::write_block(8, 3, &[0x5A, 0x80], &mut block), Err(ColumnRefusal::from(Refusal::Retired)));
/// # Ok::<(), ColumnRefusal>(())
/// ```
pub fn write_block(width: u32, number: u32, words: &[u64], buffer: &mut [u8]) -> Result<(), ColumnRefusal> {
    let (given, size) = (words.len(), buffer.len());
    let answer = unsafe { face::takum_write_block(width, number, words.as_ptr(), given, buffer.as_mut_ptr(), size) };
    Refusal::unless(answer.refusal, ()).map_err(|refusal| ColumnRefusal::at(refusal, answer.position))
}
