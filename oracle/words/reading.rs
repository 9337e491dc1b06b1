//! Reading, order and negation (paper 01, "The word"; how fine a reading is by paper 02, Wish 3); written from the
//! papers alone.

use crate::exact::number::Whole;
use crate::words::refusals::{accept_word, count_of_words, Refusal};
use crate::words::values::{bits_of, quantities, value, Value, SCALE, SCALED_POWERS};
use std::cmp::Ordering;

/// The record that reading a word hands back.
#[derive(Clone, Debug, PartialEq, Eq)]
pub struct Reading {
    pub kind: Kind,
    /// "The word's own fraction bits": how many there are.
    pub own_fraction_bits: i64,
}

/// What was read: "zero; NaR; or sign, exponent h and significand m".
#[derive(Clone, Debug, PartialEq, Eq)]
pub enum Kind {
    Zero,
    NaR,
    /// The size is m * 2^(h-p), with 2^p <= m < 2^(p+1).
    Number { minus: bool, h: i64, m: u64, p: i64 },
}

/// Reads a word. Paper 02, Wish 3, has 0 own fraction bits "for zero and NaR".
pub fn read(width: u32, word: u64) -> Result<Reading, Refusal> {
    accept_word(width, word)?;
    Ok(match value(width, word) {
        Value::NaR => Reading { kind: Kind::NaR, own_fraction_bits: 0 },
        Value::Number(number) if number.is_zero() => Reading { kind: Kind::Zero, own_fraction_bits: 0 },
        Value::Number(number) => {
            let bits = bits_of(width, word);
            Reading { kind: kind_of_number(&number, &bits), own_fraction_bits: own_fraction_bits(width, &bits) }
        }
    })
}

/// What is read of a number. The sign, h and m are found from the exact value alone; only p is taken from the fields of
/// the word's string.
fn kind_of_number(number: &Whole, bits: &[bool]) -> Kind {
    let size = number.size();
    let p = quantities(bits).fraction_count;
    let h = exponent_of_highest_power(&size);
    // The size is m * 2^(h-p), so m is the size divided by 2^(h-p). The division stops the program if it leaves a
    // remainder.
    let m = size.divided_by_power_of_two(h - p + SCALE);
    assert!(Whole::power_of_two(p) <= m && m < Whole::power_of_two(p + 1));
    // As p is at most 59, m is below 2^60.
    let m = m.to_unsigned() as u64;
    Kind::Number { minus: number.is_negative(), h, m, p }
}

/// The own fraction bits of a number: "n - r - 5 for a finite word, or 0 where that is negative, since appended zeros
/// are no precision" (paper 02, Wish 3). Nothing is subtracted here. Below each bit of the string stands the letter of
/// its field, in Definition 2's order (S, D, R, C, F). The word's own bits are the first n, and what was appended comes
/// after them. The letters F below the own bits are counted.
fn own_fraction_bits(width: u32, bits: &[bool]) -> i64 {
    let word_is = quantities(bits);
    let mut letters = "SDRRR".to_string() + &"C".repeat(word_is.regime as usize);
    while letters.len() < bits.len() {
        letters.push('F');
    }
    let count_of_f = |letters: &str| letters.matches('F').count() as i64;
    assert!(count_of_f(&letters) == word_is.fraction_count);
    count_of_f(&letters[..width as usize])
}

/// The exponent of the highest power of two that is not above the size, by comparing with one power after the other.
fn exponent_of_highest_power(size: &Whole) -> i64 {
    let place = SCALED_POWERS.iter().rposition(|power| power <= size).expect("a nonzero size is at least 2^-307");
    place as i64 - SCALE
}

/// The order of two values: "NaR comes below everything and equals itself."
pub fn order(a: &Value, b: &Value) -> Ordering {
    match (a, b) {
        (Value::NaR, Value::NaR) => Ordering::Equal,
        (Value::NaR, Value::Number(_)) => Ordering::Less,
        (Value::Number(_), Value::NaR) => Ordering::Greater,
        (Value::Number(a), Value::Number(b)) => a.cmp(b),
    }
}

/// Compares two words of one width by their exact values; answers -1, 0 or 1.
pub fn compare(width: u32, a: u64, b: u64) -> Result<i64, Refusal> {
    accept_word(width, a)?;
    accept_word(width, b)?;
    let by_value = order(&value(width, a), &value(width, b));
    // Paper 01: words taken as n-bit two's complement numbers are in the order of their values.
    assert!(by_value == signed_word(width, a).cmp(&signed_word(width, b)));
    Ok(match by_value {
        Ordering::Less => -1,
        Ordering::Equal => 0,
        Ordering::Greater => 1,
    })
}

/// The word as an n-bit two's complement number: words with the highest bit set stand for word - 2^n.
fn signed_word(width: u32, word: u64) -> i128 {
    let count = count_of_words(width) as i128;
    let word = i128::from(word);
    if word < count / 2 {
        word
    } else {
        word - count
    }
}

/// Two's complement negation in n bits: 2^n - word, modulo 2^n.
pub fn negate(width: u32, word: u64) -> Result<u64, Refusal> {
    accept_word(width, word)?;
    let count = count_of_words(width);
    let answer = ((count - u128::from(word)) % count) as u64;
    // Paper 01: "it keeps zero and NaR and negates every other value."
    match value(width, word) {
        Value::NaR => assert!(answer == word),
        Value::Number(number) => {
            assert!(value(width, answer) == Value::Number(number.negated()));
            assert!((answer == word) == number.is_zero());
        }
    }
    Ok(answer)
}
