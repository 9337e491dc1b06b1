//! A value offered for writing, as an exact number; written from the papers alone.
//!
//! Paper 01, "Writing a value": "The value offered is a sign, a 64-bit unsigned significand M and a 32-bit signed
//! exponent k: plus or minus M * 2^k." The long values of docs/CENSUS.md have a significand of 128 bits instead. Here
//! there is room for both.

use crate::exact::number::Whole;
use crate::words::values::SCALE;

/// Writing compares offers with values of words, and an offer can be finer than every word. So in writing both are held
/// as the whole number "value times 2^400". The values of words, which are whole already times 2^307, are so all the
/// more. An offer M * 2^k is, as long as k is not below -400.
pub const FINE_SCALE: i64 = 400;

/// A value times 2^400, from the same value times 2^307.
pub fn fine(number: &Whole) -> Whole {
    number.times_power_of_two(FINE_SCALE - SCALE)
}

/// A value offered: plus or minus M * 2^k.
#[derive(Clone, Copy, Debug, PartialEq, Eq)]
pub struct Offer {
    pub minus: bool,
    pub m: u128,
    pub k: i32,
}

impl Offer {
    pub fn plus(m: u128, k: i32) -> Offer {
        Offer { minus: false, m, k }
    }

    pub fn minus(m: u128, k: i32) -> Offer {
        Offer { minus: true, m, k }
    }

    /// The value offered, times 2^400. It is exact where k is from -400 to 255. With any other k it is a number that
    /// has the same answers, as the next function says.
    pub fn number(&self) -> Whole {
        let size = size_of(self.m, cut_exponent(self.k));
        if self.minus {
            size.negated()
        } else {
            size
        }
    }
}

/// M * 2^k, times 2^400; k is not below -400.
pub fn size_of(m: u128, k: i32) -> Whole {
    Whole::from_unsigned(m).times_power_of_two(i64::from(k) + FINE_SCALE)
}

/// The exponent k, brought to -400 if it is below that and to 255 if it is above. This keeps M = 0 zero, and otherwise
/// it changes neither the nearest word nor whether a word has the value nor what is said beside the word. Definition 2
/// puts the size of every nonzero word above 2^-255 and below 2^255.
///
/// - k below -400: as M is below 2^128, M * 2^k and M * 2^-400 both are below 2^-272, so below the size of every nonzero
///   word. To both the nearest word of their sign is the one of least size, and no word has either value: both are
///   past the end.
/// - k above 255: as M is at least 1, M * 2^k and M * 2^255 both are at least 2^255, so above the size of every word.
///   To both the nearest word of their sign is the one of greatest size, and no word has either value: both are
///   past the end.
fn cut_exponent(k: i32) -> i32 {
    k.clamp(-(FINE_SCALE as i32), 255)
}
