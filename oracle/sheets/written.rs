//! Writing a sheet block into a lent buffer (paper 02, Wishes 1 and 10); written from the papers alone.

use crate::sheets::blocks::{good_block, read_block, room_of, BLOCK_SIZE, BLOCK_WIDTHS, OLD_WIDTH};
use crate::sheets::columns::ColumnRefusal;
use crate::words::refusals::{accept_word, Refusal};

/// What a block says, and what writing one is given: "width, block number, words".
#[derive(Clone, Debug, PartialEq, Eq)]
pub struct Content {
    pub width: u32,
    pub number: u32,
    pub words: Vec<u64>,
}

impl Content {
    /// What is read out of a block. The width with the most words has room for all of them, so ROOM is never given.
    pub fn of(bytes: &[u8]) -> Result<Content, Refusal> {
        let mut words = vec![0; room_of(8)];
        let heading = read_block(bytes, &mut words)?;
        words.truncate(heading.count);
        Ok(Content { width: heading.width, number: heading.number, words })
    }
}

/// "Refusals: WIDTH, COUNT, SIZE, STRAY with its position, in that order." By Wish 10 "the writer refuses width 8 in
/// blocks", with "13 RETIRED, after WIDTH and before COUNT". The position is the lowest one that has a stray word. A
/// refused call leaves the buffer as it came.
pub fn write_block(content: &Content, buffer: &mut [u8]) -> Result<(), ColumnRefusal> {
    let Content { width, number, ref words } = *content;
    if !BLOCK_WIDTHS.contains(&width) {
        return Err(ColumnRefusal::OfAll(Refusal::Width));
    }
    if width == OLD_WIDTH {
        return Err(ColumnRefusal::OfAll(Refusal::Retired));
    }
    if words.len() > room_of(width) {
        return Err(ColumnRefusal::OfAll(Refusal::Count));
    }
    if buffer.len() != BLOCK_SIZE {
        return Err(ColumnRefusal::OfAll(Refusal::Size));
    }
    for (position, &word) in words.iter().enumerate() {
        accept_word(width, word).map_err(|refusal| ColumnRefusal::At(refusal, position))?;
    }
    // Nothing is refused. Only now is anything written.
    buffer.copy_from_slice(&good_block(width, number, words));
    Ok(())
}
