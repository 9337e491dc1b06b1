//! The row of results that the lines on columns and blocks lend and take in (docs/CENSUS.md, "Columns and blocks");
//! written from the papers alone.

use crate::census::digest::Digest;
use crate::sheets::blocks::{read_block, Heading};
use crate::sheets::columns::{move_column, ColumnRefusal, Moved, Rule};
use crate::words::refusals::Refusal;

/// How many sentinels lie before what is lent, and how many after it.
pub const AROUND: usize = 8;

/// Fills a row with sentinels, lends its middle of `room` words, and takes in the answer and then the whole row.
fn take_call<T>(digest: &mut Digest, room: usize, call: impl Fn(&mut [u64]) -> T, take: impl Fn(&mut Digest, T)) {
    let mut row: Vec<u64> = (0..room + 2 * AROUND).map(sentinel).collect();
    let answer = call(&mut row[AROUND..AROUND + room]);
    take(digest, answer);
    for number in row {
        digest.take(number);
    }
}

/// The sentinel of a place of the row.
pub fn sentinel(place: usize) -> u64 {
    u64::MAX - place as u64
}

/// One move of a column.
pub fn take_column(digest: &mut Digest, (from, to): (u32, u32), rule: Rule, words: &[u64], room: usize) {
    take_call(digest, room, |results| move_column(from, to, rule, words, results), take_column_answer);
}

/// "The two moves of a column": rounded, then strict.
pub fn take_both(digest: &mut Digest, widths: (u32, u32), words: &[u64], room: usize) {
    take_column(digest, widths, Rule::Rounded, words, room);
    take_column(digest, widths, Rule::Strict, words, room);
}

fn take_column_answer(digest: &mut Digest, answer: Result<Moved, ColumnRefusal>) {
    match answer {
        Ok(moved) => {
            digest.take(0);
            digest.take(moved.count as u64);
            digest.take(moved.exact as u64);
        }
        Err(refusal) => take_column_refusal(digest, refusal),
    }
}

pub fn take_column_refusal(digest: &mut Digest, refusal: ColumnRefusal) {
    match refusal {
        ColumnRefusal::OfAll(refusal) => digest.take_refusal(refusal),
        ColumnRefusal::At(refusal, position) => {
            digest.take(4);
            digest.take(refusal as u64);
            digest.take(position as u64);
        }
    }
}

/// One reading of a block.
pub fn take_block(digest: &mut Digest, bytes: &[u8], room: usize) {
    take_call(digest, room, |results| read_block(bytes, results), take_block_answer);
}

fn take_block_answer(digest: &mut Digest, answer: Result<Heading, Refusal>) {
    match answer {
        Err(refusal) => digest.take_refusal(refusal),
        Ok(heading) => {
            digest.take(0);
            digest.take(u64::from(heading.width));
            digest.take(u64::from(heading.number));
            digest.take(heading.count as u64);
        }
    }
}
