//! The words of chosen numbers, for the example sheets; written from the papers alone.

use crate::numbers::whole::whole_in;
use crate::writing::answers::write;
use crate::writing::offers::Offer;

/// The words of whole numbers, rounded.
pub fn words_of_wholes(width: u32, wholes: &[i64]) -> Vec<u64> {
    wholes.iter().map(|&whole| whole_in(width, whole).rounded.unwrap().word).collect()
}

/// The words of whole numbers that all have one.
pub fn strict_words_of_wholes(width: u32, wholes: &[i64]) -> Vec<u64> {
    wholes.iter().map(|&whole| whole_in(width, whole).strict.expect("the number has a word").word).collect()
}

/// The words of halves of whole numbers. These halves all have one.
pub fn strict_words_of_halves(width: u32, wholes: &[i64]) -> Vec<u64> {
    let half_of = |whole: i64| Offer { minus: whole < 0, m: whole.unsigned_abs().into(), k: -1 };
    wholes.iter().map(|&whole| write(width, &half_of(whole)).strict.expect("the half has a word").word).collect()
}

/// The word of M * 2^k, rounded.
pub fn plus(width: u32, m: u128, k: i32) -> u64 {
    write(width, &Offer::plus(m, k)).rounded.unwrap().word
}

/// The word of -M * 2^k, rounded.
pub fn minus(width: u32, m: u128, k: i32) -> u64 {
    write(width, &Offer::minus(m, k)).rounded.unwrap().word
}
