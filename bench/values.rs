// What the calls are timed on: pseudo-random, the same in every run.

use crate::plain;

pub const COUNT: usize = 65_536;
pub const BLOCKS: usize = 10_000;

pub type Block = [u8; 512];

pub struct Offer {
    pub negative: bool,
    pub m: u64,
    pub k: i32,
}

// A fixed row of numbers for each seed.
fn numbers(seed: u64) -> impl FnMut() -> u64 {
    let mut state = 0x9e37_79b9_7f4a_7c15 + seed;
    move || {
        state ^= state << 13;
        state ^= state >> 7;
        state ^= state << 17;
        state
    }
}

// Values over the whole range and beyond both ends.
pub fn offers() -> Vec<Offer> {
    let mut next = numbers(0);
    (0..COUNT)
        .map(|_| {
            let m = next() >> (next() % 64);
            let h = (next() % 522) as i32 - 261;
            Offer { negative: next() % 2 == 1, m, k: h - 63 + m.leading_zeros() as i32 }
        })
        .collect()
}

pub fn wide_words() -> Vec<u64> {
    let mut next = numbers(64);
    (0..COUNT).map(|_| next()).collect()
}

pub fn narrow_words() -> Vec<u64> {
    (0..COUNT as u64).collect()
}

// Whole numbers of every length and both signs.
pub fn wholes() -> Vec<i64> {
    let mut next = numbers(1);
    (0..COUNT)
        .map(|_| {
            let size = (next() >> 1 >> (next() % 64)) as i64;
            if next() % 2 == 1 { -1 - size } else { size }
        })
        .collect()
}

// Whole numbers of every length and both signs, one in four a power of two and one in four with zeros at its end.
pub fn counts() -> Vec<i64> {
    let mut next = numbers(5);
    (0..COUNT)
        .map(|_| {
            let (size, zeros) = (next() >> 1 >> (next() % 64), next() % 63);
            let size = match next() % 4 {
                0 => 1 << zeros,
                1 => size >> zeros << zeros,
                _ => size,
            } as i64;
            if next() % 2 == 1 { -size } else { size }
        })
        .collect()
}

// Finite binary64 numbers from 2^-260 to 2^261, a little past both ends of the words.
pub fn floats() -> Vec<f64> {
    let mut next = numbers(2);
    (0..COUNT)
        .map(|_| {
            let exponent = 1023 - 260 + next() % 521;
            f64::from_bits(next() >> 63 << 63 | exponent << 52 | next() >> 12)
        })
        .collect()
}

// The word nearest to plus or minus m * 2^k.
fn word_of(n: u32, negative: bool, m: u64, k: i32) -> u64 {
    plain::write(n, false, negative, m, k).unwrap().word
}

// Words of values from 2^-3 up to 2^65 and both signs: most have a whole number in 64 bits.
pub fn words_of_wholes(n: u32) -> Vec<u64> {
    let mut next = numbers(3);
    (0..COUNT)
        .map(|_| {
            let h = (next() % 68) as i32 - 3;
            word_of(n, next() % 2 == 1, next() | 1 << 63, h - 63)
        })
        .collect()
}

// Blocks of all four widths, with right sums: one in four is full, the others have any count.
pub fn blocks() -> Vec<Block> {
    let mut next = numbers(4);
    (0..BLOCKS)
        .map(|number| {
            let size = 1 << (next() % 4);
            let full = 496 / size;
            let count = if next() % 4 == 0 { full } else { next() as usize % (full + 1) };
            let mut block = [0; 512];
            block[..2].copy_from_slice(&[0x54, 8 * size as u8]);
            block[2..4].copy_from_slice(&(count as u16).to_le_bytes());
            block[4..8].copy_from_slice(&(number as u32).to_le_bytes());
            block[8..8 + size * count].fill_with(|| next() as u8);
            seal(&mut block);
            block
        })
        .collect()
}

// Puts the right sums into a block.
pub fn seal(block: &mut Block) {
    let (a, b) = plain::block::sums_of(block);
    block[504..508].copy_from_slice(&a.to_le_bytes());
    block[508..].copy_from_slice(&b.to_le_bytes());
}

// The words of `BLOCKS` full blocks of a width: runs of the words, the next begins within the one before.
pub fn full_contents(width: u32, words: &[u64]) -> impl Iterator<Item = &[u64]> {
    let full = 3968 / width as usize;
    (0..BLOCKS).map(move |i| &words[6 * i..][..full])
}

// ---- the edges, for the comparison of answers alone
pub const EDGE_WHOLES: [i64; 9] = [0, 1, -1, i64::MAX, i64::MIN, i64::MIN + 1, 1 << 62, (1 << 55) + 1, -(1 << 55) - 1];

pub const EDGE_FLOATS: [f64; 10] =
    [0.0, -0.0, 1.0, -1.0, f64::INFINITY, f64::NEG_INFINITY, f64::NAN, f64::MAX, -f64::MIN_POSITIVE, f64::MIN_POSITIVE / 4.0];

// Zero, NaR, the words beside them, and the words about 2^63 and -2^63, where a whole number is just inside or outside 64 bits.
pub fn edge_words(n: u32) -> Vec<u64> {
    let mut words = vec![0, 1];
    if !(2..=64).contains(&n) {
        return words;
    }
    let all = u64::MAX >> (64 - n);
    let nar = 1 << (n - 1);
    words.extend([all, nar, nar - 1, (nar + 1) & all]);
    for negative in [false, true] {
        let word = word_of(n, negative, 1, 63);
        words.extend([word, word.wrapping_sub(1) & all, (word + 1) & all]);
    }
    words
}

// The sizes of the smallest and of the largest word, and those just inside and outside of them, of either sign: there another saying begins.
pub fn end_offers(n: u32) -> Vec<Offer> {
    if !(2..=64).contains(&n) {
        return vec![];
    }
    let sizes = [1, (1u64 << (n - 1)) - 1].map(|word| plain::read_positive(word << (64 - n)));
    let offers = sizes.into_iter().flat_map(|(h, m)| [m - 1, m, m + 1].map(|m| (m, h - 63)));
    offers.flat_map(|(m, k)| [false, true].map(|negative| Offer { negative, m, k })).collect()
}

// The words at which another regime begins, of either sign, and those beside them.
pub fn regime_words(n: u32) -> Vec<u64> {
    if !(2..=64).contains(&n) {
        return vec![];
    }
    let all = u64::MAX >> (64 - n);
    let firsts = (0..32u64).map(|bits| bits << 59 >> (64 - n));
    firsts.flat_map(|word| [word.wrapping_sub(1) & all, word, word.wrapping_add(1) & all]).collect()
}

// The words of halves and those beside them, of both signs: of i and a half for each i up to 63, and about each power of two up to 2^55, since the last
// ones lie below 2^54. Where a width has no such word, the nearest stands for it.
pub fn half_words(n: u32) -> Vec<u64> {
    if !(2..=64).contains(&n) {
        return vec![];
    }
    let all = u64::MAX >> (64 - n);
    let wholes = (0..64).chain((6..=55).flat_map(|k| (1u64 << k) - 2..(1 << k) + 2));
    let halves = wholes.flat_map(|i| [false, true].map(|negative| word_of(n, negative, 2 * i + 1, -1)));
    halves.flat_map(|word| [word.wrapping_sub(1) & all, word, word.wrapping_add(1) & all]).collect()
}
