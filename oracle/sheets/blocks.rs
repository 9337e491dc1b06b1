//! The sheet block: reading one, and making one, with faults for the tests too (paper 01, "The sheet block"); written
//! from the papers alone.

use crate::words::refusals::Refusal;

/// "512 bytes."
pub const BLOCK_SIZE: usize = 512;

pub const BLOCK_WIDTHS: [u32; 4] = [8, 16, 32, 64];

/// "No more 8-bit sheets" (paper 02, Wish 10): blocks of this width are read and no longer written.
pub const OLD_WIDTH: u32 = 8;

/// "Byte 0: 0x54."
pub const MARK: u8 = 0x54;

/// "Bytes 8 to 503: words." The first byte after them is 504.
const WORDS_START: usize = 8;
const WORDS_END: usize = 504;

/// "Bytes 504 to 507: A. Bytes 508 to 511: B."
const A_START: usize = 504;
const B_START: usize = 508;

/// What reading a block answers, in paper 01's order: "width, block number and count".
#[derive(Clone, Copy, Debug, PartialEq, Eq)]
pub struct Heading {
    pub width: u32,
    pub number: u32,
    pub count: usize,
}

/// "Numbers little-endian": the bytes from `start` up to `end`, `end` left out, as a number.
fn number_at(bytes: &[u8], start: usize, end: usize) -> u64 {
    bytes[start..end].iter().rev().fold(0, |number, &byte| number * 256 + u64::from(byte))
}

/// Stores a number little-endian in the bytes from `start` up to `end`.
pub fn store(bytes: &mut [u8], start: usize, end: usize, number: u64) {
    let mut rest = number;
    for place in start..end {
        bytes[place] = (rest % 256) as u8;
        rest /= 256;
    }
    assert!(rest == 0, "the number has more bytes than its place");
}

pub const COUNT_OF_NUMBERS: usize = 126;
pub const TWO_TO_32: u64 = 1 << 32;

/// "Take bytes 0 to 503 as 126 numbers of 32 bits."
pub fn number_of_place(bytes: &[u8], place: usize) -> u64 {
    assert!(place < COUNT_OF_NUMBERS);
    number_at(bytes, 4 * place, 4 * place + 4)
}

/// Stores one of the 126 numbers, taken modulo 2^32.
pub fn store_number_of_place(bytes: &mut [u8], place: usize, number: u64) {
    assert!(place < COUNT_OF_NUMBERS);
    store(bytes, 4 * place, 4 * place + 4, number % TWO_TO_32);
}

/// "A is their sum modulo 2^32. B is the sum modulo 2^32 of the 126 running values of A, the first taken after the
/// first number."
pub fn sums(bytes: &[u8]) -> (u64, u64) {
    let (mut a, mut b) = (0, 0);
    for place in 0..COUNT_OF_NUMBERS {
        a = (a + number_of_place(bytes, place)) % TWO_TO_32;
        b = (b + a) % TWO_TO_32;
    }
    (a, b)
}

/// "That is room for 496, 248, 124 or 62 words."
pub fn room_of(width: u32) -> usize {
    match width {
        8 => 496,
        16 => 248,
        32 => 124,
        64 => 62,
        _ => panic!("not a width of a block"),
    }
}

/// The first byte after the first `count` words: "packed from byte 8".
pub fn end_of_words(width: u32, count: usize) -> usize {
    WORDS_START + count * (width as usize / 8)
}

/// "Reading a block fills the lent result slice from its start with the words, keeps the remainder, and answers width,
/// block number and count." "Order for blocks: SIZE, MARK, CHECK, WIDTH, COUNT, FILL, ROOM."
pub fn read_block(bytes: &[u8], results: &mut [u64]) -> Result<Heading, Refusal> {
    if bytes.len() != BLOCK_SIZE {
        return Err(Refusal::Size);
    }
    if bytes[0] != MARK {
        return Err(Refusal::Mark);
    }
    let stored = (number_at(bytes, A_START, A_START + 4), number_at(bytes, B_START, B_START + 4));
    if sums(bytes) != stored {
        return Err(Refusal::Check);
    }
    let width = u32::from(bytes[1]);
    if !BLOCK_WIDTHS.contains(&width) {
        return Err(Refusal::Width);
    }
    let count = number_at(bytes, 2, 4) as usize;
    if count > room_of(width) {
        return Err(Refusal::Count);
    }
    if bytes[end_of_words(width, count)..WORDS_END].iter().any(|&byte| byte != 0) {
        return Err(Refusal::Fill);
    }
    if results.len() < count {
        return Err(Refusal::Room);
    }
    for position in 0..count {
        results[position] = number_at(bytes, end_of_words(width, position), end_of_words(width, position + 1));
    }
    Ok(Heading { width, number: number_at(bytes, 4, 8) as u32, count })
}

// ---------------------------------------------------------------------------------------------------------------------
// Making
// ---------------------------------------------------------------------------------------------------------------------

pub type Block = [u8; BLOCK_SIZE];

/// A sealed block. The width and the count are stored as given, good or not; the words are packed from byte 8, each in
/// the bytes of `packed_width`.
pub fn make_block(width: u8, count: u16, number: u32, packed_width: u32, words: &[u64]) -> Block {
    let mut block = [0; BLOCK_SIZE];
    block[0] = MARK;
    block[1] = width;
    store(&mut block, 2, 4, u64::from(count));
    store(&mut block, 4, 8, u64::from(number));
    assert!(words.len() <= room_of(packed_width));
    for (position, &word) in words.iter().enumerate() {
        store(&mut block, end_of_words(packed_width, position), end_of_words(packed_width, position + 1), word);
    }
    seal(&mut block);
    block
}

/// A block of a good width that holds just these words.
pub fn good_block(width: u32, number: u32, words: &[u64]) -> Block {
    make_block(width as u8, words.len() as u16, number, width, words)
}

/// Stores A and B as they must be.
pub fn seal(block: &mut Block) {
    let (a, b) = sums(block);
    store(block, A_START, A_START + 4, a);
    store(block, B_START, B_START + 4, b);
}
