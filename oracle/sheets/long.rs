//! Long sheets of pseudo-random blocks, for the tests of the lister; written from the papers alone.
//!
//! No other program makes these sheets, so docs/CENSUS.md doesn't describe them.

use crate::sheets::blocks::{good_block, room_of, seal, store, Block, BLOCK_WIDTHS};
use crate::words::sequence::{low_bits, Sequence};
use std::io::{Result, Write};

/// Writes a sheet of this many blocks. About one in 32 is refused. A shorter sheet is the beginning of a longer one.
pub fn write_long_sheet(count_of_blocks: u32, output: &mut impl Write) -> Result<()> {
    let mut sequence = Sequence::new(50_000);
    for place in 0..count_of_blocks {
        output.write_all(&next_block(&mut sequence, place))?;
    }
    Ok(())
}

/// One block: any width, any count, mostly numbered by its place.
fn next_block(sequence: &mut Sequence, place: u32) -> Block {
    let [x1, x2, x3, x4] = [(); 4].map(|()| sequence.next_number());
    let width = BLOCK_WIDTHS[(x1 % 4) as usize];
    let full = room_of(width);
    let count = match x2 % 16 {
        0 => 0,
        1..=4 => full,
        _ => (x2 >> 8) as usize % (full + 1),
    };
    let number = if x3 % 16 == 0 { low_bits(x3 >> 8, 32) as u32 } else { place };
    let words: Vec<u64> = (0..count).map(|_position| next_word(sequence, width)).collect();
    let mut block = good_block(width, number, &words);
    if x4 % 32 == 0 {
        damage(&mut block, width, (x4 >> 8) % 6, (x4 >> 16) as usize);
    }
    block
}

/// One word in four is any word. The others have D = 1 and R from 0 to 4: from 1 up to 2^31, or a negative number of
/// at most that size. One word in 64 is NaR.
fn next_word(sequence: &mut Sequence, width: u32) -> u64 {
    let [x1, x2] = [(); 2].map(|()| sequence.next_number());
    let word = low_bits(x1, width);
    if x2 % 64 == 0 {
        return 1 << (width - 1);
    }
    if x2 % 4 == 1 {
        return word;
    }
    let sign = x1 >> 63;
    // The sizes go up with the regime where S = 0, and down where S = 1; so R stays with D for S = 0, and both are turned
    // over for S = 1.
    let head = 8 + (x2 >> 8) % 5;
    let head = if sign == 1 { 16 + (15 - head) } else { head };
    (head << (width - 5)) + low_bits(word, width - 5)
}

/// Makes the block one that is refused, in one of six ways. Byte 1 and the count are changed to such as are refused.
fn damage(block: &mut Block, width: u32, way: u64, chosen: usize) {
    match way {
        0 => block[0] ^= 1 + (chosen % 255) as u8,
        1 => block[4 + chosen % 508] ^= 0x40,
        2 => {
            block[1] = width as u8 + 1;
            seal(block);
        }
        3 => {
            store(block, 2, 4, room_of(width) as u64 + 1);
            seal(block);
        }
        4 => {
            // Where the last byte is that of a word, this is no damage.
            block[503] ^= 0x20;
            seal(block);
        }
        _ => block[508] ^= 0x80,
    }
}
