//! A sheet of many short blocks, for the tests of the lister; written from the papers alone.
//!
//! Nothing in it is random. No other program makes this sheet, so docs/CENSUS.md doesn't describe it.

use crate::numbers::whole::whole_in;
use crate::sheets::blocks::{good_block, BLOCK_WIDTHS};
use crate::sheets::faults::Faulty;
use crate::words::widths::{largest_word, nar_word};
use crate::writing::answers::write;
use crate::writing::offers::Offer;

const COUNT_OF_BLOCKS: u32 = 200;

/// The places of the blocks that are refused.
const REFUSED_PLACES: [u32; 8] = [0, 5, 126, 127, 128, 129, 150, 199];

/// MARK, CHECK, WIDTH, COUNT and FILL, as `Faulty` numbers them. The refused blocks have one of these each, in turn.
const FAULTS: [u64; 5] = [2, 4, 8, 16, 32];

/// How many bytes of one more block come last.
const SIZE_OF_LAST_PIECE: usize = 100;

/// The bytes of the sheet: 200 blocks of 0 to 4 words, of the four widths in turn, and a short last piece.
pub fn stack_sheet() -> Vec<u8> {
    let mut sheet = Vec::new();
    let mut kinds = (0..COUNT_OF_KINDS).cycle();
    for place in 0..COUNT_OF_BLOCKS {
        let width = BLOCK_WIDTHS[place as usize % 4];
        let count = (place as usize + 2) % 5;
        let words: Vec<u64> = kinds.by_ref().take(count).map(|kind| word_of_kind(width, kind)).collect();
        let block = good_block(width, number_of(place), &words);
        let block = match REFUSED_PLACES.iter().position(|&refused| refused == place) {
            None => block,
            Some(turn) => Faulty::new(&block, width, count, FAULTS[turn % 5]).block,
        };
        sheet.extend(block);
    }
    let last = good_block(16, number_of(COUNT_OF_BLOCKS), &[0x5A00, 0x8000]);
    sheet.extend(&last[..SIZE_OF_LAST_PIECE]);
    sheet
}

/// A block number that is not the block's place. One in ten has as many digits as there can be.
fn number_of(place: u32) -> u32 {
    if place % 10 == 9 {
        u32::MAX - place
    } else {
        3 * place + 7
    }
}

/// Whole numbers of all lengths. The greatest goes in as 2^63, which is too large to go out.
const WHOLES: [i64; 13] = [
    0,
    -1,
    7,
    -12,
    515,
    -4_096,
    86_400,
    -1_046_325,
    1_000_000_007,
    -98_765_432_109,
    36_028_797_018_963_967,
    i64::MIN,
    i64::MAX,
];

const COUNT_OF_KINDS: usize = WHOLES.len() + 4;

/// The word of each whole number above, rounded; then NaR, both ends of the width, and -0.5, which goes out as 0.
fn word_of_kind(width: u32, kind: usize) -> u64 {
    if kind < WHOLES.len() {
        return whole_in(width, WHOLES[kind]).rounded.unwrap().word;
    }
    match kind - WHOLES.len() {
        0 => nar_word(width).unwrap(),
        1 => largest_word(width).unwrap(),
        2 => nar_word(width).unwrap() + 1,
        _ => write(width, &Offer::minus(1, -1)).strict.unwrap().word,
    }
}
