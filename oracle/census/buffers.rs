//! The row of bytes that the lines on written blocks lend and take in (docs/CENSUS.md, "Written blocks"); written from
//! the papers alone.

use crate::census::digest::Digest;
use crate::census::results::{sentinel, take_column_refusal, AROUND};
use crate::sheets::columns::ColumnRefusal;
use crate::sheets::written::{write_block, Content};
use crate::words::sequence::low_bits;

/// One writing of a block: fills a row with sentinels, lends its middle of `size` bytes, and takes in the answer and then
/// the whole row. Hands back what is in the buffer then.
pub fn take_write(digest: &mut Digest, content: &Content, size: usize) -> Vec<u8> {
    let mut row: Vec<u8> = (0..size + 2 * AROUND).map(|place| low_bits(sentinel(place), 8) as u8).collect();
    let answer = write_block(content, &mut row[AROUND..AROUND + size]);
    take_write_answer(digest, answer);
    for &byte in &row {
        digest.take(u64::from(byte));
    }
    row[AROUND..AROUND + size].to_vec()
}

fn take_write_answer(digest: &mut Digest, answer: Result<(), ColumnRefusal>) {
    match answer {
        Ok(()) => digest.take(0),
        Err(refusal) => take_column_refusal(digest, refusal),
    }
}
