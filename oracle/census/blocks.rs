//! The lines on blocks that are read, and on single bytes and sums that differ (docs/CENSUS.md, parts 32 to 34);
//! written from the papers alone.

use crate::census::columns::rooms_around;
use crate::census::digest::Digest;
use crate::census::results::take_block;
use crate::census::runs::push_runs;
use crate::sheets::blocks::{
    make_block, number_of_place, room_of, seal, store_number_of_place, Block, BLOCK_SIZE, BLOCK_WIDTHS,
    COUNT_OF_NUMBERS, TWO_TO_32,
};
use crate::sheets::written::Content;
use crate::words::sequence::{low_bits, Sequence};

pub fn push(lines: &mut Vec<String>) {
    block_lines(lines);
    byte_lines(lines);
    sum_lines(lines);
}

/// "The content of w and c": its number and its words are taken from the sequence.
pub fn next_content(sequence: &mut Sequence, width: u32, count: usize) -> Content {
    let number = low_bits(sequence.next_number(), 32) as u32;
    let words = (0..count).map(|_position| sequence.next_word(width)).collect();
    Content { width, number, words }
}

/// "The block of w and c": it has the count c, but no more words than there is room for.
pub fn next_block(sequence: &mut Sequence, width: u32, count: usize) -> Block {
    let content = next_content(sequence, width, count.min(room_of(width)));
    make_block(width as u8, count as u16, content.number, width, &content.words)
}

/// The line of one block width and one more number.
pub fn block_line(name: &str, width: u32, second: usize, digest: &Digest) -> String {
    format!("{name} {width} {second} {}", digest.text())
}

/// Part 32: blocks with few words and with many, and result slices that are too short, just right and longer.
fn block_lines(lines: &mut Vec<String>) {
    for width in BLOCK_WIDTHS {
        let mut sequence = Sequence::new(40_000 + width);
        let full = room_of(width);
        for count in [0, 1, 2, full - 1, full, full + 1, 65_535] {
            let mut digest = Digest::new();
            let block = next_block(&mut sequence, width, count);
            for room in rooms_around(count.min(full)) {
                take_block(&mut digest, &block, room);
            }
            lines.push(block_line("block", width, count, &digest));
        }
    }
}

/// Part 33: one byte changed, at each of the 512 places, not sealed anew and sealed anew.
fn byte_lines(lines: &mut Vec<String>) {
    for width in BLOCK_WIDTHS {
        let mut sequence = Sequence::new(41_000 + width);
        let count = room_of(width) / 2;
        let block = next_block(&mut sequence, width, count);
        push_runs(lines, ("byte", width), 0..=BLOCK_SIZE as u64 - 1, 64, |digest, place| {
            let mut changed = block;
            changed[place as usize] ^= 1 + (sequence.next_number() % 255) as u8;
            take_block(digest, &changed, count + 4);
            seal(&mut changed);
            take_block(digest, &changed, count + 4);
        });
    }
}

/// Part 34: the 126 numbers changed so that both sums differ, or one, or none.
fn sum_lines(lines: &mut Vec<String>) {
    for width in BLOCK_WIDTHS {
        let mut sequence = Sequence::new(42_000 + width);
        let full = room_of(width);
        let block = next_block(&mut sequence, width, full);
        for kind in 1..=4 {
            let mut digest = Digest::new();
            let last = COUNT_OF_NUMBERS - [1, 2, 2, 3][kind - 1];
            for place in 0..=last {
                let d = 1 + sequence.next_number() % (TWO_TO_32 - 1);
                let changed = change_of_kind(&block, kind, place, d);
                take_block(&mut digest, &changed, full);
            }
            lines.push(block_line("sums", width, kind, &digest));
        }
    }
}

/// The block with the numbers from `place` on changed; d is from 1 to 2^32 - 1.
pub fn change_of_kind(block: &Block, kind: usize, place: usize, d: u64) -> Block {
    let mut changed = *block;
    let mut add = |place: usize, number: u64| {
        let sum = number_of_place(&changed, place) + number % TWO_TO_32;
        store_number_of_place(&mut changed, place, sum);
    };
    // d is below 2^32 and the factors are below 2^7, so the products are below 2^39; 2^39 is a multiple of 2^32.
    let minus = |number: u64| (1 << 39) - number;
    let i = place as u64;
    match kind {
        1 => store_number_of_place(&mut changed, place, number_of_place(block, place) ^ d),
        2 => {
            add(place, d);
            add(place + 1, minus(d));
        }
        3 => {
            add(place, d * (125 - i));
            add(place + 1, minus(d * (126 - i)));
        }
        4 => {
            add(place, d);
            add(place + 1, minus(2 * d));
            add(place + 2, d);
        }
        _ => panic!("there are four kinds"),
    }
    changed
}
