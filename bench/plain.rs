// The plain Rust that the library is timed against: reading, writing and moving, rounded and strict, whole numbers and binary64 in and out, every
// width from 2 to 64, the same refusals and sayings; the width that a whole number needs; columns and sheet blocks. No table, and no loop for one word. The paper's letters: n the width, r
// the regime, c the characteristic.
#![allow(dead_code)] // main.rs and lister.rs each use a part

pub mod binary64;
pub mod block;
pub mod column;
pub mod reading;
pub mod whole;

pub const WIDTH: u32 = 1;
pub const STRAY: u32 = 2;
pub const NAR: u32 = 3;
pub const INEXACT: u32 = 4;
pub const OVER: u32 = 5;
pub const ROOM: u32 = 6;
pub const SIZE: u32 = 7;
pub const MARK: u32 = 8;
pub const CHECK: u32 = 9;
pub const COUNT: u32 = 10;
pub const FILL: u32 = 11;
pub const RETIRED: u32 = 13;

// What is said of a word: where it lies from the value that it was written for.
pub const EXACT: u32 = 0;
pub const BELOW: u32 = 1;
pub const ABOVE: u32 = 2;
pub const PAST_THE_END: u32 = 3;

const TOP: u64 = 1 << 63;

pub struct Written {
    pub word: u64,
    pub saying: u32,
}

#[inline(always)]
fn exactly(word: u64) -> Written {
    Written { word, saying: EXACT }
}

#[inline(always)]
fn past(end: u64) -> Written {
    Written { word: end, saying: PAST_THE_END }
}

// Plus or minus m * 2^k as a word.
#[inline(always)]
pub fn write(n: u32, strict: bool, negative: bool, m: u64, k: i32) -> Result<Written, u32> {
    if !(2..=64).contains(&n) {
        return Err(WIDTH);
    }
    if m == 0 {
        return Ok(exactly(0));
    }
    let zeros = m.leading_zeros();
    write_size(n, strict, negative, k as i64 + 63 - zeros as i64, m << zeros)
}

// Plus or minus m * 2^(h - 63), m having its top bit set: the nearest word, by the strict rule only where it has just that size.
#[inline(always)]
fn write_size(n: u32, strict: bool, negative: bool, h: i64, m: u64) -> Result<Written, u32> {
    let Written { word, saying } = nearest(n, negative, h, m);
    if strict && saying != EXACT {
        return Err(INEXACT);
    }
    Ok(Written { word: with_sign(n, negative, word), saying })
}

// A word of width `from` as one of width `to`.
#[inline]
pub fn move_word(from: u32, to: u32, strict: bool, word: u64) -> Result<Written, u32> {
    if !(2..=64).contains(&from) || !(2..=64).contains(&to) {
        return Err(WIDTH);
    }
    moved(to, strict, string_of(from, word)?)
}

// A string as a word of width `to`.
#[inline(always)]
fn moved(to: u32, strict: bool, string: u64) -> Result<Written, u32> {
    if string == 0 {
        return Ok(exactly(0));
    }
    if string == TOP {
        return Ok(exactly(1 << (to - 1)));
    }
    let (negative, h, m) = read(string);
    write_size(to, strict, negative, h as i64, m)
}

// A word with its sign at the top of 64 bits: zero bits follow on the right, as the format wants below 12 bits.
#[inline]
fn string_of(n: u32, word: u64) -> Result<u64, u32> {
    if !(2..=64).contains(&n) {
        return Err(WIDTH);
    }
    if n < 64 && word >> n != 0 {
        return Err(STRAY);
    }
    Ok(word << (64 - n))
}

// The sign and the size of a string that is neither zero nor NaR.
#[inline]
fn read(string: u64) -> (bool, i32, u64) {
    let (h, m) = read_positive((string as i64).unsigned_abs());
    (string >= TOP, h, m)
}

// The size of a positive string is m * 2^(h - 63), m having its top bit set.
#[inline]
pub fn read_positive(string: u64) -> (i32, u64) {
    let regime = (string >> 59 & 7) as u32;
    let up = string >> 62 == 1;
    let r = if up { regime } else { 7 - regime };
    let after = string << 5;
    let bits = (after >> 1 >> (63 - r)) as i32;
    let c = if up { (1 << r) - 1 + bits } else { bits + 1 - (2 << r) };
    (c, TOP | after << r >> 1)
}

// The positive word nearest to m * 2^(h - 63), m having its top bit set, and what is said where the value has that sign.
#[inline(always)]
fn nearest(n: u32, negative: bool, h: i64, m: u64) -> Written {
    let last = (1u64 << (n - 1)) - 1;
    if h > 254 {
        return past(last);
    }
    if h < -255 {
        return past(1);
    }
    // Downward, regime and characteristic stand there by the complement of the upward ones. No branch: nobody can foretell the direction.
    let down = (h >> 63) as u64;
    let size = (h as u64 ^ down) + 1;
    let r = 63 - size.leading_zeros();
    let start = (((7 + r as u64) << r) + size) ^ (down & ((16 << r) - 1));
    if n < 5 + r {
        return nearest_narrow(n, negative, h as i32, m, start >> (5 + r - n), last);
    }
    let kept = n - 5 - r;
    let fraction = m << 1;
    let low = (start << kept) + (fraction >> 1 >> (63 - kept));
    let cut = fraction << kept;
    // One test for both ends: the string 0, or that of the largest word.
    if low.wrapping_sub(1) >= last - 1 {
        return at_end(low, cut);
    }
    // Up past half, and at half from an odd word; the carry runs into the characteristic by itself.
    let up = cut > TOP - (low & 1);
    Written { word: low + up as u64, saying: if cut == 0 { EXACT } else { beside(negative, up) } }
}

// The string 0 is short of the smallest word; any other is that of the largest, and beyond it where something is cut off.
#[cold]
#[inline(never)]
fn at_end(low: u64, cut: u64) -> Written {
    if low != 0 && cut == 0 {
        return exactly(low);
    }
    past(low.max(1))
}

// Below 12 bits the cut can fall into the characteristic: both neighbours are powers of two, and their values decide.
#[cold]
fn nearest_narrow(n: u32, negative: bool, h: i32, m: u64, low: u64, last: u64) -> Written {
    if low == 0 {
        return past(1);
    }
    let i = read_positive(low << (64 - n)).0;
    let beyond = m - TOP;
    if h == i && beyond == 0 {
        return exactly(low);
    }
    if low == last {
        return past(last);
    }
    let j = read_positive((low + 1) << (64 - n)).0;
    let up = is_past_midpoint(h, beyond, i, j, low & 1 == 1);
    Written { word: low + up as u64, saying: beside(negative, up) }
}

// Whether 2^h * (1 + beyond * 2^-63), from 2^i on and below 2^j, goes up. The midpoint of the two is 2^(j - 1) + 2^(i - 1).
fn is_past_midpoint(h: i32, beyond: u64, i: i32, j: i32, odd: bool) -> bool {
    let gap = j - i;
    if h < j - 1 {
        return false;
    }
    if gap > 63 {
        return beyond > 0;
    }
    let half = TOP >> gap;
    beyond > half || (beyond == half && odd)
}

// A size that went up leaves the word above it, or, where it is negative, below.
#[inline(always)]
fn beside(negative: bool, up: bool) -> u32 {
    BELOW + (up != negative) as u32
}

// Without a branch, since nobody can foretell the sign.
#[inline]
fn with_sign(n: u32, negative: bool, word: u64) -> u64 {
    let flip = (negative as u64).wrapping_neg();
    (word ^ flip).wrapping_sub(flip) & (u64::MAX >> (64 - n))
}
