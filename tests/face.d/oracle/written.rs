//! Pseudo-random blocks to write, with faults that come alone and together.
use crate::answers::{column_refused, row};
use crate::choices::Choices;
use crate::lent::{count_of_words, pieces};
use crate::sheets::blocks::{room_of, BLOCK_SIZE, BLOCK_WIDTHS, OLD_WIDTH};
use crate::sheets::written::{write_block, Content};

pub fn block_to_write(choices: &mut Choices) -> String {
    let content = content(choices);
    let size = if choices.once_in(rarity(content.width)) { another_size(choices) } else { BLOCK_SIZE };
    let mut buffer = vec![0; size];
    let answer = match write_block(&content, &mut buffer) {
        Ok(()) => format!("written {}", pieces(&buffer)),
        Err(refusal) => column_refused(refusal),
    };
    format!("write_block {} {} {} size {size} = {answer}", content.width, content.number, row(&content.words))
}

/// One in how many blocks has a fault. At 16, 32 and 64 bits each is rare enough for about half of all blocks to be written. At 8 bits none is (paper
/// 02, Wish 10), so there the faults that come after RETIRED are in every second one.
fn rarity(width: u32) -> u64 {
    if width == OLD_WIDTH {
        2
    } else {
        6
    }
}

/// What the block is to hold, with faults or without.
fn content(choices: &mut Choices) -> Content {
    let width = choices.one_of(&BLOCK_WIDTHS);
    let full = room_of(width);
    // Not many more than full: a case stays a line of a bounded length.
    let count = if choices.once_in(rarity(width)) { full + 1 + choices.below(16) as usize } else { count_of_words(choices, full) };
    let mut words: Vec<u64> = (0..count).map(|_| choices.number() >> (64 - width)).collect();
    if choices.once_in(rarity(width)) && width < 64 && count > 0 {
        for _ in 0..1 + choices.below(3) {
            let place = choices.below(count as u64) as usize;
            words[place] = stray_word(choices, width);
        }
    }
    let width = if choices.once_in(6) { another_width(choices, width) } else { width };
    let number = if choices.once_in(8) { choices.one_of(&[0, 1, 1 << 31, u32::MAX]) } else { choices.number() as u32 };
    Content { width, number, words }
}

/// A number with one bit at or above the width, or with any of them.
fn stray_word(choices: &mut Choices, width: u32) -> u64 {
    let place = match choices.below(4) {
        0 => width,
        1 => 63,
        _ => width + choices.below(u64::from(64 - width)) as u32,
    };
    let any = choices.number();
    let rest = if choices.once_in(4) { any } else { any >> (64 - width) };
    rest | 1 << place
}

/// Mostly not a block's width: small or at an edge, the width in the lowest of its four bytes, or any number.
fn another_width(choices: &mut Choices, width: u32) -> u32 {
    match choices.below(4) {
        0 => choices.one_of(&[0, 1, 7, 9, 12, 24, 63, 65, 128, u32::MAX]),
        1 => choices.below(128) as u32,
        2 => width + 256 * (1 + choices.below((1 << 24) - 1) as u32),
        _ => choices.number() as u32,
    }
}

/// Mostly not a block's size.
fn another_size(choices: &mut Choices) -> usize {
    if choices.once_in(3) {
        choices.below(1025) as usize
    } else {
        choices.one_of(&[0, 1, 8, 504, 511, 513, 520, 1024])
    }
}
