//! A block with a set of faults, alone or together (docs/CENSUS.md, part 35); written from the papers alone.

use crate::sheets::blocks::{room_of, seal, store, Block, BLOCK_SIZE};

/// A block with a set of faults.
pub struct Faulty {
    pub block: Block,
    /// How many of its bytes are lent.
    pub size: usize,
    /// How many words the result slice has.
    pub room: usize,
}

impl Faulty {
    /// The set is the sum of 1 for SIZE, 2 for MARK, 4 for CHECK, 8 for WIDTH, 16 for COUNT, 32 for FILL, 64 for ROOM:
    /// the refusals in paper 01's order for blocks. The block has `count` words, which leaves byte 503 unused.
    pub fn new(block: &Block, width: u32, count: usize, faults: u64) -> Faulty {
        let has = |fault: u64| (faults / fault) % 2 == 1;
        let mut block = *block;
        if has(2) {
            block[0] = 0x55;
        }
        if has(8) {
            block[1] = width as u8 + 4;
        }
        if has(16) {
            store(&mut block, 2, 4, room_of(width) as u64 + 1);
        }
        if has(32) {
            block[503] = 1;
        }
        seal(&mut block);
        if has(4) {
            block[508] ^= 1;
        }
        let size = if has(1) { BLOCK_SIZE - 1 } else { BLOCK_SIZE };
        let room = if has(64) { count - 1 } else { count + 4 };
        Faulty { block, size, room }
    }
}
