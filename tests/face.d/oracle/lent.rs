//! Pseudo-random columns and blocks, with faults that come alone and together.
use crate::answers::{column_refused, row, text};
use crate::choices::Choices;
use crate::sheets::blocks::{end_of_words, good_block, read_block, room_of, seal, store, BLOCK_SIZE, BLOCK_WIDTHS};
use crate::sheets::columns::{move_column, Moved, Rule};
use crate::words::refusals::make_width;
use crate::words::widths::nar_word;

/// How much room the results have for `count` words: seldom too little.
fn room_for(choices: &mut Choices, count: usize) -> usize {
    if choices.once_in(12) {
        choices.below(count as u64 + 1) as usize
    } else {
        count + choices.below(3) as usize
    }
}

pub fn column(choices: &mut Choices) -> String {
    let (from, to) = (choices.width(), choices.width());
    let length = choices.below(9) as usize;
    let is_loose = choices.once_in(3);
    let words: Vec<u64> = (0..length).map(|_| word_to_move(choices, from, to, is_loose)).collect();
    let (name, rule) = if choices.once_in(2) { ("strict", Rule::Strict) } else { ("rounded", Rule::Rounded) };
    let room = room_for(choices, length);
    let mut results = vec![0; room];
    let answer = match move_column(from, to, rule, &words, &mut results) {
        Ok(Moved { count, exact }) => format!("moved {count} exact {exact} {}", row(&results[..count])),
        Err(refusal) => column_refused(refusal),
    };
    format!("move_column {from} {to} {name} {} room {room} = {answer}", row(&words))
}

/// Mostly a word whose value both widths have, so that a strict move goes on to the next; in a loose column mostly any word, so that a rounded move
/// has few that are exact. NaR and zero are among both.
fn word_to_move(choices: &mut Choices, from: u32, to: u32, is_loose: bool) -> u64 {
    if make_width(from).is_err() || make_width(to).is_err() || choices.once_in(12) {
        return choices.word(from);
    }
    let narrow = from.min(to);
    match choices.below(10) {
        0 => choices.one_of(&[0, nar_word(from).unwrap()]),
        1 if is_loose => choices.edge_to_move(from, to),
        _ if is_loose => choices.number() >> (64 - from),
        _ => (choices.number() >> (64 - narrow)) << (from - narrow),
    }
}

/// How many words a block has: mostly a few, never more than there is room for.
pub fn count_of_words(choices: &mut Choices, full: usize) -> usize {
    match choices.below(8) {
        0 => 0,
        1 => full,
        2 => choices.below(full as u64 + 1) as usize,
        _ => choices.below(9) as usize,
    }
}

pub fn sheet_block(choices: &mut Choices) -> String {
    let width = choices.one_of(&BLOCK_WIDTHS);
    let most = room_of(width) as u64;
    let count = count_of_words(choices, room_of(width));
    let words: Vec<u64> = (0..count).map(|_| choices.number() >> (64 - width)).collect();
    let number = choices.number() as u32;
    let mut block = good_block(width, number, &words);

    // Faults that are sealed in.
    if choices.once_in(10) && count < room_of(width) {
        let unused = end_of_words(width, count) as u64;
        block[(unused + choices.below(504 - unused)) as usize] = 1 + choices.below(255) as u8;
    }
    if choices.once_in(10) {
        store(&mut block, 2, 4, most + 1 + choices.below(65535 - most));
    }
    if choices.once_in(10) {
        block[1] = choices.number() as u8;
    }
    if choices.once_in(10) {
        block[0] = choices.number() as u8;
    }
    seal(&mut block);
    // One that is not.
    if choices.once_in(10) {
        block[choices.below(BLOCK_SIZE as u64) as usize] ^= 1 + choices.below(255) as u8;
    }

    let mut bytes = block.to_vec();
    if choices.once_in(16) {
        let size = choices.one_of(&[0, 1, 8, 504, 511, 513, 1024]);
        bytes.resize(size, 0);
    }
    let room = room_for(choices, count);
    let mut results = vec![0; room];
    let answer = text(read_block(&bytes, &mut results), |heading| {
        let words = row(&results[..heading.count]);
        format!("block {} {} {} {words}", heading.width, heading.number, heading.count)
    });
    format!("read_block {} room {room} = {answer}", pieces(&bytes))
}

/// The bytes in hex, eight or more equal ones as a piece that is repeated.
pub fn pieces(bytes: &[u8]) -> String {
    let (mut pieces, mut piece) = (Vec::new(), String::new());
    for equal in bytes.chunk_by(|a, b| a == b) {
        let digits = format!("{:02x}", equal[0]);
        if equal.len() < 8 {
            piece.push_str(&digits.repeat(equal.len()));
        } else {
            if !piece.is_empty() {
                pieces.push(std::mem::take(&mut piece));
            }
            pieces.push(format!("{digits}*{}", equal.len()));
        }
    }
    if !piece.is_empty() {
        pieces.push(piece);
    }
    if pieces.is_empty() {
        return "-".to_string();
    }
    pieces.join(",")
}
