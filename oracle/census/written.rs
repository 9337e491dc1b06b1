//! The lines on blocks that are written (docs/CENSUS.md, parts 45 to 50); written from the papers alone.

use crate::census::blocks::{block_line, next_block, next_content};
use crate::census::buffers::take_write;
use crate::census::digest::Digest;
use crate::census::results::take_block;
use crate::census::runs::{push_runs, single_line};
use crate::sheets::blocks::{room_of, BLOCK_SIZE, BLOCK_WIDTHS};
use crate::sheets::written::Content;
use crate::words::sequence::Sequence;

pub fn push(lines: &mut Vec<String>) {
    written_lines(lines);
    strayed_lines(lines);
    unwritten_lines(lines);
    written_width_lines(lines);
    written_number_lines(lines);
    again_lines(lines);
}

/// Part 45: contents with few words and with many, and buffers that are too short, too long and just right; what is
/// written is read. At width 8 nothing is written, and the sentinels are read.
fn written_lines(lines: &mut Vec<String>) {
    for width in BLOCK_WIDTHS {
        let mut sequence = Sequence::new(47_000 + width);
        let full = room_of(width);
        for count in [0, 1, 2, full - 1, full, full + 1, 2 * full + 1] {
            let mut digest = Digest::new();
            let content = next_content(&mut sequence, width, count);
            for size in [0, 8, 504, 511, 513, 520] {
                take_write(&mut digest, &content, size);
            }
            let block = take_write(&mut digest, &content, BLOCK_SIZE);
            if count <= full {
                take_block(&mut digest, &block, count + 4);
            }
            lines.push(block_line("written", width, count, &digest));
        }
    }
}

/// A bit that is set in a word.
#[derive(Clone, Copy)]
enum Bit {
    /// The lowest one that is stray.
    Low,
    /// The highest one there is. At width 64 it isn't stray.
    High,
}

/// Part 46: contents with stray words at the first, the middle and the last place, and at two of them at once.
fn strayed_lines(lines: &mut Vec<String>) {
    for width in BLOCK_WIDTHS {
        let mut sequence = Sequence::new(48_000 + width);
        let full = room_of(width);
        for count in [1, 2, full / 2, full] {
            let mut digest = Digest::new();
            let content = next_content(&mut sequence, width, count);
            for bits in bits_of(count) {
                let mut strayed = content.clone();
                for (place, bit) in bits {
                    strayed.words[place] |= set_bit(width, bit);
                }
                take_write(&mut digest, &strayed, BLOCK_SIZE);
                take_write(&mut digest, &strayed, BLOCK_SIZE - 1);
            }
            lines.push(block_line("strayed", width, count, &digest));
        }
    }
}

/// The 12 ways to set bits in this many words, which are not 0.
fn bits_of(count: usize) -> Vec<Vec<(usize, Bit)>> {
    let (first, middle, last) = (0, count / 2, count - 1);
    let mut ways = Vec::new();
    for place in [first, middle, last] {
        ways.push(vec![(place, Bit::Low)]);
        ways.push(vec![(place, Bit::High)]);
    }
    for (lower, higher) in [(first, middle), (first, last), (middle, last)] {
        ways.push(vec![(lower, Bit::Low), (higher, Bit::High)]);
        ways.push(vec![(lower, Bit::High), (higher, Bit::Low)]);
    }
    ways
}

/// The number that the bit is worth. There is no bit 64.
fn set_bit(width: u32, bit: Bit) -> u64 {
    match bit {
        Bit::Low if width == 64 => 0,
        Bit::Low => 1 << width,
        Bit::High => 1 << 63,
    }
}

/// Part 47: every set of faults, from none to all four.
fn unwritten_lines(lines: &mut Vec<String>) {
    for width in BLOCK_WIDTHS {
        let mut sequence = Sequence::new(49_000 + width);
        let mut digest = Digest::new();
        let drawn = next_content(&mut sequence, width, room_of(width) + 1);
        for faults in 0..=15 {
            let (content, size) = with_faults(&drawn, faults);
            take_write(&mut digest, &content, size);
        }
        lines.push(single_line("unwritten", width, &digest));
    }
}

/// A content with a set of faults, and how many bytes its buffer has. The set is the sum of 1 for WIDTH, 2 for COUNT,
/// 4 for SIZE, 8 for STRAY: the refusals in their order, but for RETIRED, which is in no set. One word more was drawn
/// than there is room for.
pub fn with_faults(drawn: &Content, faults: u64) -> (Content, usize) {
    let has = |fault: u64| (faults / fault) % 2 == 1;
    let mut content = drawn.clone();
    if has(1) {
        content.width += 4;
    }
    if !has(2) {
        content.words.truncate(room_of(drawn.width) / 2);
    }
    if has(8) {
        content.words[1] |= 1 << 63;
    }
    let size = if has(4) { BLOCK_SIZE - 1 } else { BLOCK_SIZE };
    (content, size)
}

/// Widths above 255 to try. The low byte of all but the last is a block's width.
const LONG_WIDTHS: [u32; 7] = [264, 272, 288, 320, 65_544, 2_147_483_656, 4_294_967_295];

/// Part 48: every width of one byte, and longer ones.
fn written_width_lines(lines: &mut Vec<String>) {
    for count in [0, 1, 63] {
        let mut digest = Digest::new();
        for width in (0..=255).chain(LONG_WIDTHS) {
            let content = Content { width, number: width, words: vec![1; count] };
            take_write(&mut digest, &content, BLOCK_SIZE);
        }
        lines.push(single_line("writtenwidth", count as u32, &digest));
    }
}

/// Part 49: block numbers at the ends of their bytes.
fn written_number_lines(lines: &mut Vec<String>) {
    for width in BLOCK_WIDTHS {
        let mut sequence = Sequence::new(50_000 + width);
        let mut digest = Digest::new();
        let mut content = next_content(&mut sequence, width, 3);
        for number in [0, 1, 255, 256, 65_535, 65_536, (1 << 31) - 1, 1 << 31, u32::MAX] {
            content.number = number;
            take_write(&mut digest, &content, BLOCK_SIZE);
        }
        lines.push(single_line("writtennumber", width, &digest));
    }
}

/// Part 50: blocks of every count are read, and written again from what was read, or refused at width 8.
fn again_lines(lines: &mut Vec<String>) {
    for width in BLOCK_WIDTHS {
        let mut sequence = Sequence::new(51_000 + width);
        push_runs(lines, ("again", width), 0..=room_of(width) as u64, 64, |digest, count| {
            let block = next_block(&mut sequence, width, count as usize);
            take_block(digest, &block, count as usize);
            let content = Content::of(&block).expect("a block that was drawn is good");
            take_write(digest, &content, BLOCK_SIZE);
        });
    }
}
