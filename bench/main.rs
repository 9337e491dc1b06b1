// Times the library against bench/plain.rs in one process; see bench/README.md.
mod agreement;
mod calls;
mod handed;
mod plain;
mod timing;
mod values;

use calls::{
    on_block, on_column, on_content, One, MOVE, MOVE_COLUMN, READ, READ_BLOCK, SHORTEST_WIDTH, TAKE_BINARY64, TAKE_WHOLE, WRITE, WRITE_BINARY64, WRITE_BLOCK,
    WRITE_WHOLE,
};
use handed::Parts;
use timing::compare;
use values::{Block, BLOCKS, COUNT};

// A value that the compiler can't follow.
#[inline(never)]
fn hidden<T: Copy>(x: &T) -> T {
    unsafe { std::ptr::read_volatile(x) }
}

// All answers in one number, in their order.
#[inline(always)]
fn sum(answers: impl Iterator<Item = u64>) -> u64 {
    answers.fold(0u64, |sum, answer| (sum.rotate_left(5) ^ answer).wrapping_add(answer))
}

fn compare_one<T: Copy, R: Parts>(name: &str, calls: [impl One<T, R>; 3], n: u32, given: &[T]) -> bool {
    let side = |i: usize| { let call = hidden(&calls[i]); move || sum(given.iter().map(|&x| call.on(n, false, x).bits())) };
    compare(&format!("{} {}", name, n), COUNT, [&mut side(0), &mut side(1), &mut side(2)])
}

fn compare_shortest(counts: &[i64]) -> bool {
    let side = |i: usize| { let call = hidden(&SHORTEST_WIDTH[i]); move || sum(counts.iter().map(|&x| unsafe { call(x) }.bits())) };
    compare("shortest width", COUNT, [&mut side(0), &mut side(1), &mut side(2)])
}

// A round is one call. All results are compared before (`agreement.rs`); here one stands for them.
fn compare_columns(from: u32, to: u32, words: &[u64]) -> bool {
    let side = |i: usize| {
        let (call, mut results) = (hidden(&MOVE_COLUMN[i]), vec![0; COUNT]);
        move || on_column(call, from, to, false, words, &mut results).bits() ^ results[COUNT - 1]
    };
    compare(&format!("column {} to {}", from, to), COUNT, [&mut side(0), &mut side(1), &mut side(2)])
}

fn compare_blocks(blocks: &[Block]) -> bool {
    let side = |i: usize| {
        let (call, mut results) = (hidden(&READ_BLOCK[i]), vec![0; 496]);
        move || sum(blocks.iter().map(|block| on_block(call, block, &mut results).bits() ^ results[0]))
    };
    compare("blocks", BLOCKS, [&mut side(0), &mut side(1), &mut side(2)])
}

// Full blocks, each of other words, written into one buffer. All of it is compared before; here A and B stand for it.
fn compare_written(width: u32, words: &[u64]) -> bool {
    let side = |i: usize| {
        let (call, mut buffer) = (hidden(&WRITE_BLOCK[i]), [0; 512]);
        move || {
            sum(values::full_contents(width, words).zip(0..).map(|(content, number)| {
                on_content(call, width, number, content, &mut buffer).bits() ^ u64::from_le_bytes(buffer[504..].try_into().unwrap())
            }))
        }
    };
    compare(&format!("written blocks {}", width), BLOCKS, [&mut side(0), &mut side(1), &mut side(2)])
}

fn main() {
    let offers = values::offers();
    let wide = values::wide_words();
    let narrow = values::narrow_words();
    let wholes = values::wholes();
    let counts = values::counts();
    let floats = values::floats();
    let blocks = values::blocks();
    agreement::agree_everywhere(&offers, &wide, &wholes, &floats);
    agreement::agree_on_counts(&counts);
    agreement::agree_on_columns(&wide, &narrow);
    agreement::agree_on_blocks(&blocks);
    agreement::agree_on_written(&wide, &narrow);

    let mut within = true;
    for (n, words) in [(16, &narrow), (64, &wide)] {
        within &= compare_one("reading", READ, n, words);
    }
    for n in [16, 64] {
        let side = |i: usize| { let (call, offers) = (hidden(&WRITE[i]), &offers); move || sum(offers.iter().map(|o| unsafe { call(n, 0, o.negative, o.m, o.k) }.bits())) };
        within &= compare(&format!("writing at {}", n), COUNT, [&mut side(0), &mut side(1), &mut side(2)]);
    }
    for (from, to, words) in [(64, 16, &wide), (16, 64, &narrow)] {
        let side = |i: usize| { let call = hidden(&MOVE[i]); move || sum(words.iter().map(|&w| unsafe { call(from, to, 0, w) }.bits())) };
        within &= compare(&format!("moving {} to {}", from, to), COUNT, [&mut side(0), &mut side(1), &mut side(2)]);
    }
    for n in [16, 64] {
        within &= compare_one("whole number in", WRITE_WHOLE, n, &wholes);
    }
    for n in [16, 64] {
        within &= compare_one("whole number out", TAKE_WHOLE, n, &values::words_of_wholes(n));
    }
    within &= compare_shortest(&counts);
    for n in [16, 64] {
        within &= compare_one("binary64 in", WRITE_BINARY64, n, &floats);
    }
    for (n, words) in [(16, &narrow), (64, &wide)] {
        within &= compare_one("binary64 out", TAKE_BINARY64, n, words);
    }
    within &= compare_columns(16, 64, &narrow);
    within &= compare_columns(64, 16, &wide);
    within &= compare_blocks(&blocks);
    within &= compare_written(16, &narrow);
    within &= compare_written(64, &wide);
    timing::conclude(within);
}
