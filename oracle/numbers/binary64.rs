//! Binary64 in and out (paper 01, "Whole numbers and binary64"); written from the papers alone.
//!
//! A binary64 number is known here by its 64-bit pattern only: the sign bit, an exponent field of 11 bits and a
//! fraction field of 52. Nothing is done in the machine's own floating point. A pattern stands for an exact number,
//! and the nearest pattern to a number is found by comparing exact numbers.

use crate::exact::number::Whole;
use crate::exact::search::{last_not_above, nearer_place};
use crate::words::refusals::{accept_word, make_width, Refusal};
use crate::words::values::{value, Value};
use crate::words::widths::nar_word;
use crate::writing::answers::{write, Answers};
use crate::writing::offers::{fine, Offer, FINE_SCALE};

// ---------------------------------------------------------------------------------------------------------------------
// What a pattern stands for
// ---------------------------------------------------------------------------------------------------------------------

/// The pattern of a number: sign, exponent field and fraction field.
pub fn pattern_of(minus: bool, exponent_field: u64, fraction_field: u64) -> u64 {
    assert!(exponent_field < 1 << 11 && fraction_field < 1 << 52);
    with_sign(minus, (exponent_field << 52) + fraction_field)
}

/// The pattern without a sign bit, and the sign added.
pub fn with_sign(minus: bool, pattern: u64) -> u64 {
    assert!(pattern < SIGN_BIT);
    if minus {
        SIGN_BIT + pattern
    } else {
        pattern
    }
}

const SIGN_BIT: u64 = 1 << 63;

/// The pattern of positive infinity. All patterns below it are finite numbers that are not negative, in rising order.
pub const INFINITY: u64 = 2047 << 52;

/// One of the patterns that are not a number. All of them have the same answers.
pub const NAN: u64 = INFINITY + (1 << 51);

/// What a pattern stands for.
enum Meaning {
    NaN,
    /// Of either sign.
    Infinity,
    /// Plus or minus m * 2^k.
    Finite(Offer),
}

/// IEEE 754, binary64. Exponent field 2047: infinity if the fraction field is 0, and otherwise not a number. Exponent
/// field 0: fraction * 2^-1074, which has zero and the subnormal numbers. Otherwise, E being the exponent field:
/// (1 + fraction / 2^52) * 2^(E - 1023), which is (2^52 + fraction) * 2^(E - 1075).
fn meaning(pattern: u64) -> Meaning {
    let minus = pattern >= SIGN_BIT;
    let exponent_field = (pattern >> 52) % (1 << 11);
    let fraction_field = u128::from(pattern % (1 << 52));
    match (exponent_field, fraction_field) {
        (2047, 0) => Meaning::Infinity,
        (2047, _) => Meaning::NaN,
        (0, m) => Meaning::Finite(Offer { minus, m, k: -1074 }),
        (exponent, fraction) => Meaning::Finite(Offer { minus, m: (1 << 52) + fraction, k: exponent as i32 - 1075 }),
    }
}

// ---------------------------------------------------------------------------------------------------------------------
// In
// ---------------------------------------------------------------------------------------------------------------------

/// "NaN and both infinities give NaR, both zeros give zero, every other number is written rounded or strict." "NaR and
/// zero are exact" (paper 02, Wish 4), whichever pattern gives them.
pub fn binary64_in(width: u32, pattern: u64) -> Answers {
    if let Err(refusal) = make_width(width) {
        return Answers::alike(Err(refusal));
    }
    match meaning(pattern) {
        Meaning::NaN | Meaning::Infinity => Answers::alike(nar_word(width)),
        Meaning::Finite(offer) => write(width, &offer),
    }
}

// ---------------------------------------------------------------------------------------------------------------------
// Out
// ---------------------------------------------------------------------------------------------------------------------

/// The answer of binary64 out.
#[derive(Clone, Copy, Debug, PartialEq, Eq)]
pub enum Binary64 {
    /// The pattern of the number.
    Number(u64),
    NoReading,
}

/// "Binary64 out answers either a number or "no reading" for NaR. For widths up to 57 the number out is exactly the
/// word's value; from 58 on it is the nearest binary64, ties to even. Zero goes out as positive zero."
pub fn binary64_out(width: u32, word: u64) -> Result<Binary64, Refusal> {
    accept_word(width, word)?;
    let number = match value(width, word) {
        Value::NaR => return Ok(Binary64::NoReading),
        Value::Number(number) => finest(&fine(&number)),
    };
    let pattern = nearest_pattern(&number.size());
    assert!(width > 57 || size_of_pattern(pattern) == number.size(), "up to width 57 the number is exact");
    Ok(Binary64::Number(with_sign(number.is_negative(), pattern)))
}

/// Every finite binary64 number is a whole multiple of 2^-1074. So beside them numbers are held times 2^1074.
pub const FINEST_SCALE: i64 = 1074;

/// A value times 2^1074, from the same value times 2^400.
pub fn finest(number: &Whole) -> Whole {
    number.times_power_of_two(FINEST_SCALE - FINE_SCALE)
}

/// The number of a pattern below that of infinity, times 2^1074.
pub fn size_of_pattern(pattern: u64) -> Whole {
    assert!(pattern < INFINITY);
    match meaning(pattern) {
        Meaning::Finite(Offer { m, k, .. }) => Whole::from_unsigned(m).times_power_of_two(i64::from(k) + FINEST_SCALE),
        Meaning::NaN | Meaning::Infinity => panic!("all patterns below infinity are finite"),
    }
}

/// The pattern of the nearest binary64 number to a size, which is held times 2^1074; halfway between two numbers, the
/// even one, whose last fraction bit is 0, which is the pattern's lowest bit.
pub fn nearest_pattern(size: &Whole) -> u64 {
    let below = last_pattern_not_above(size);
    assert!(below + 1 < INFINITY, "the sizes of words lie far below the greatest finite number");
    nearer_place(below, size, size_of_pattern)
}

/// The last pattern whose number is not above the size.
fn last_pattern_not_above(size: &Whole) -> u64 {
    last_not_above(0, i128::from(INFINITY), |pattern| size_of_pattern(pattern as u64).cmp(size)) as u64
}

/// The pattern of exactly this size, which is held times 2^1074, or none if no binary64 number has it.
pub fn pattern_of_size(size: &Whole) -> Option<u64> {
    let pattern = last_pattern_not_above(size);
    (size_of_pattern(pattern) == *size).then_some(pattern)
}
