// Both sides hand over the same at every width, the narrow and the refused ones too, and refuse by the same number; asked before anything is timed.
use crate::calls::{
    on_block, on_column, on_content, Move, One, Write, MOVE, MOVE_COLUMN, READ, READ_BLOCK, SHORTEST_WIDTH, TAKE_BINARY64, TAKE_WHOLE, WRITE,
    WRITE_BINARY64, WRITE_BLOCK, WRITE_WHOLE,
};
use crate::handed::Parts;
use crate::values::{self, Block, Offer, COUNT};

pub fn agree_everywhere(offers: &[Offer], words: &[u64], wholes: &[i64], floats: &[f64]) {
    for (n, strict) in (0..=66).flat_map(|n| [(n, false), (n, true)]) {
        agree_on_writes(WRITE, n, strict, offers.iter().step_by(16).chain(&values::end_offers(n)));
        for to in 0..=66 {
            agree_on_moves(MOVE, n, to, strict, words);
        }
        agree_on("whole number in", WRITE_WHOLE, n, strict, wholes.iter().step_by(16).chain(&values::EDGE_WHOLES));
        agree_on("binary64 in", WRITE_BINARY64, n, strict, floats.iter().step_by(16).chain(&values::EDGE_FLOATS));
        let drawn = words.iter().step_by(16).map(|&w| perhaps_stray(n, w));
        let some: Vec<u64> = drawn.chain(values::edge_words(n)).chain(values::half_words(n)).collect();
        agree_on("reading", READ, n, strict, some.iter().chain(&values::regime_words(n)));
        agree_on("whole number out", TAKE_WHOLE, n, strict, some.iter());
        agree_on("binary64 out", TAKE_BINARY64, n, strict, some.iter());
    }
}

// One bit more than the width has, so that some words are stray.
fn perhaps_stray(n: u32, word: u64) -> u64 {
    word & (u64::MAX >> (63 - n.min(63)))
}

fn agree_on_writes<'a>(calls: [Write; 3], n: u32, strict: bool, offers: impl Iterator<Item = &'a Offer>) {
    for o in offers {
        let [ours, theirs] = [0, 1].map(|i| unsafe { calls[i](n, strict as u32, o.negative, o.m, o.k) }.parts());
        if ours != theirs {
            differ(&format!("writing at {}, strict {}: negative {}, m {:x}, k {}", n, strict, o.negative, o.m, o.k), ours, theirs);
        }
    }
}

fn agree_on_moves(calls: [Move; 3], from: u32, to: u32, strict: bool, words: &[u64]) {
    for w in words.iter().step_by(512) {
        let word = perhaps_stray(from, *w);
        let [ours, theirs] = [0, 1].map(|i| unsafe { calls[i](from, to, strict as u32, word) }.parts());
        if ours != theirs {
            differ(&format!("moving {:x} from {} to {}, strict {}", word, from, to, strict), ours, theirs);
        }
    }
}

fn agree_on<'a, T: Parts + 'a, R: Parts>(name: &str, calls: [impl One<T, R>; 3], n: u32, strict: bool, given: impl Iterator<Item = &'a T>) {
    for x in given {
        let [ours, theirs] = [0, 1].map(|i| calls[i].on(n, strict, *x).parts());
        if ours != theirs {
            differ(&format!("{} at {}, strict {}: bits {:x}", name, n, strict, x.bits()), ours, theirs);
        }
    }
}

// The numbers that are timed, the edges, and all beside a power of two.
pub fn agree_on_counts(counts: &[i64]) {
    let powers = (0..63).flat_map(|k| (-2..=2).map(move |d| (1 << k) + d));
    for x in counts.iter().chain(&values::EDGE_WHOLES).copied().chain(powers) {
        let [ours, theirs] = [0, 1].map(|i| unsafe { SHORTEST_WIDTH[i](x) }.parts());
        if ours != theirs {
            differ(&format!("the shortest width of {}", x), ours, theirs);
        }
    }
}

// The columns that are timed, and short ones at every width: some have a stray word, some have no room, some leave places over.
pub fn agree_on_columns(wide: &[u64], narrow: &[u64]) {
    agree_on_column(16, 64, false, narrow, COUNT);
    agree_on_column(64, 16, false, wide, COUNT);
    for from in 0..=66 {
        for to in 0..=66 {
            for (i, words) in wide.chunks(5).take(12).enumerate() {
                let words: Vec<u64> = words.iter().map(|w| if i % 4 == 0 { perhaps_stray(from, *w) } else { perhaps_stray(from, *w) >> 1 }).collect();
                agree_on_column(from, to, i % 2 == 1, &words, 4 + i % 3);
            }
        }
    }
}

fn agree_on_column(from: u32, to: u32, strict: bool, words: &[u64], room: usize) {
    let [ours, theirs] = [0, 1].map(|i| {
        let mut results = vec![9; room];
        (on_column(MOVE_COLUMN[i], from, to, strict, words, &mut results).parts(), results)
    });
    agree_on_slices(|| format!("column of {} from {} to {}, strict {}", words.len(), from, to, strict), ours, theirs);
}

// The blocks that are timed; some with each byte changed, the sums made right again or not; some too short, and some with too few places.
pub fn agree_on_blocks(blocks: &[Block]) {
    for block in blocks {
        agree_on_block(block, 496);
        agree_on_block(block, 60);
    }
    for block in &blocks[..32] {
        agree_on_block(&block[1..], 496);
        for i in 0..512 {
            let mut other = *block;
            other[i] ^= 1 << (i % 8);
            agree_on_block(&other, 496);
            values::seal(&mut other);
            agree_on_block(&other, 496);
        }
    }
}

fn agree_on_block(block: &[u8], room: usize) {
    let [ours, theirs] = [0, 1].map(|i| {
        let mut results = vec![9; room];
        (on_block(READ_BLOCK[i], block, &mut results).parts(), results)
    });
    agree_on_slices(|| format!("block {:x?}", block), ours, theirs);
}

// The blocks that are timed, and short ones at every width: some have stray words, some too many, some a buffer of another size.
pub fn agree_on_written(wide: &[u64], narrow: &[u64]) {
    for (width, words) in [(16, narrow), (64, wide)] {
        for (content, number) in values::full_contents(width, words).zip(0..) {
            agree_on_content(width, number, content, 512);
        }
    }
    for width in (0..=66).chain([264, 65544]) {
        for (i, words) in wide.chunks(600).take(32).enumerate() {
            let count = [0, 1, 5, 62, 63, 124, 125, 248, 249, 496, 497][i % 11];
            let words: Vec<u64> = words[..count].iter().map(|w| if i % 3 == 0 { perhaps_stray(width, *w) } else { perhaps_stray(width, *w) >> 1 }).collect();
            agree_on_content(width, u32::MAX - i as u32, &words, [512, 512, 512, 511, 520][i % 5]);
        }
    }
}

fn agree_on_content(width: u32, number: u32, words: &[u64], size: usize) {
    let [ours, theirs] = [0, 1].map(|i| {
        let mut buffer = vec![9; size];
        (on_content(WRITE_BLOCK[i], width, number, words, &mut buffer).parts(), buffer)
    });
    agree_on_slices(|| format!("{} words written at {} into {} bytes", words.len(), width, size), ours, theirs);
}

fn agree_on_slices<T: PartialEq>(what: impl Fn() -> String, ours: ([u64; 4], Vec<T>), theirs: ([u64; 4], Vec<T>)) {
    if ours.1 != theirs.1 {
        eprintln!("{}: the results differ", what());
        std::process::exit(1);
    }
    if ours.0 != theirs.0 {
        differ(&what(), ours.0, theirs.0);
    }
}

// The refusal's number comes first.
fn differ(what: &str, ours: [u64; 4], theirs: [u64; 4]) -> ! {
    eprintln!("{}: library {:x?}, plain {:x?}", what, ours, theirs);
    std::process::exit(1);
}
