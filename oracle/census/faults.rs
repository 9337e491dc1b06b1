//! The lines on blocks that are refused, for one reason and for several at once, and on every field of a block
//! (docs/CENSUS.md, parts 35 to 40); written from the papers alone.

use crate::census::blocks::{block_line, next_block};
use crate::census::digest::Digest;
use crate::census::results::take_block;
use crate::census::runs::{push_runs, single_line};
use crate::sheets::blocks::{end_of_words, make_block, room_of, seal, store, BLOCK_WIDTHS};
use crate::sheets::faults::Faulty;
use crate::words::sequence::Sequence;

pub fn push(lines: &mut Vec<String>) {
    fault_lines(lines);
    width_byte_lines(lines);
    mark_lines(lines);
    fill_lines(lines);
    size_lines(lines);
    number_lines(lines);
}

/// Part 35: every set of faults, from none to all seven.
fn fault_lines(lines: &mut Vec<String>) {
    for width in BLOCK_WIDTHS {
        let mut sequence = Sequence::new(43_000 + width);
        let count = room_of(width) / 2;
        let block = next_block(&mut sequence, width, count);
        push_runs(lines, ("fault", width), 0..=127, 16, |digest, faults| {
            let faulty = Faulty::new(&block, width, count, faults);
            take_block(digest, &faulty.block[..faulty.size], faulty.room);
        });
    }
}

/// Part 36: every value of byte 1.
fn width_byte_lines(lines: &mut Vec<String>) {
    for count in [1, 63] {
        let mut digest = Digest::new();
        for byte in 0..=255 {
            let block = make_block(byte, count, u32::from(byte), 8, &[]);
            take_block(&mut digest, &block, 64);
        }
        lines.push(single_line("widthbyte", u32::from(count), &digest));
    }
}

/// Part 37: every value of byte 0.
fn mark_lines(lines: &mut Vec<String>) {
    let mut digest = Digest::new();
    for byte in 0..=255 {
        let mut block = make_block(16, 1, u32::from(byte), 16, &[]);
        block[0] = byte;
        seal(&mut block);
        take_block(&mut digest, &block, 4);
    }
    lines.push(single_line("mark", 16, &digest));
}

/// Part 38: bytes at the ends of the used and of the unused ones.
fn fill_lines(lines: &mut Vec<String>) {
    for width in BLOCK_WIDTHS {
        let mut sequence = Sequence::new(44_000 + width);
        for count in [0, 1, room_of(width) - 1] {
            let mut digest = Digest::new();
            let block = next_block(&mut sequence, width, count);
            let end = end_of_words(width, count);
            for place in [8, end - 1, end, (end + 503) / 2, 503] {
                let mut changed = block;
                changed[place] ^= 0x80;
                seal(&mut changed);
                take_block(&mut digest, &changed, count + 1);
            }
            lines.push(block_line("fill", width, count, &digest));
        }
    }
}

/// Part 39: slices that are shorter or longer than a block.
fn size_lines(lines: &mut Vec<String>) {
    for width in BLOCK_WIDTHS {
        let mut sequence = Sequence::new(45_000 + width);
        let mut digest = Digest::new();
        let mut bytes = next_block(&mut sequence, width, room_of(width)).to_vec();
        bytes.extend([0; 8]);
        for size in [0, 1, 2, 8, 503, 504, 511, 512, 513, 520] {
            take_block(&mut digest, &bytes[..size], room_of(width));
        }
        lines.push(single_line("size", width, &digest));
    }
}

/// Part 40: block numbers at the ends of their bytes.
fn number_lines(lines: &mut Vec<String>) {
    for width in BLOCK_WIDTHS {
        let mut sequence = Sequence::new(46_000 + width);
        let mut digest = Digest::new();
        let mut block = next_block(&mut sequence, width, 3);
        for number in [0, 1, 255, 256, 65_535, 65_536, (1 << 31) - 1, 1 << 31, (1 << 32) - 1] {
            store(&mut block, 4, 8, number);
            seal(&mut block);
            take_block(&mut digest, &block, 3);
        }
        lines.push(single_line("number", width, &digest));
    }
}
