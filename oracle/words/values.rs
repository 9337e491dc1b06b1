//! The value of a word (document 004, Definition 2); written from the papers alone.

use crate::exact::number::Whole;
use std::sync::LazyLock;

/// Every value is a whole multiple of 2^-307 and below 2^255 in size (paper 01, "The word"). So this program holds a
/// value as the whole number "value times 2^307".
pub const SCALE: i64 = 307;

/// The exact value of a word; zero is a number here.
#[derive(Clone, Debug, PartialEq, Eq)]
pub enum Value {
    NaR,
    /// The value times 2^307.
    Number(Whole),
}

/// The quantities that Definition 2 names for a word.
pub struct Quantities {
    /// S: 0 or 1.
    sign: i64,
    /// r: how many characteristic bits there are.
    pub regime: i64,
    /// p: how many fraction bits there are.
    pub fraction_count: i64,
    /// uint(F): the fraction bits as a whole number, so f = uint(F) / 2^p.
    fraction: i64,
    /// c
    characteristic: i64,
    /// e
    exponent: i64,
}

/// The word as a string of bits, highest bit first, with zero bits appended on the right until there are 12.
pub fn bits_of(width: u32, word: u64) -> Vec<bool> {
    let mut bits: Vec<bool> = (0..width).rev().map(|place| (word >> place) & 1 == 1).collect();
    while bits.len() < 12 {
        bits.push(false);
    }
    bits
}

/// A string of bits as a whole number, highest bit first; the empty string is 0.
fn uint(bits: &[bool]) -> i64 {
    bits.iter().fold(0, |number, &bit| 2 * number + i64::from(bit))
}

/// The string with every bit turned over: the bar over R in Definition 2.
fn complement(bits: &[bool]) -> Vec<bool> {
    bits.iter().map(|&bit| !bit).collect()
}

/// 2^exponent for small exponents.
pub fn small_power_of_two(exponent: i64) -> i64 {
    assert!((0..=62).contains(&exponent));
    1 << exponent
}

/// Cuts the bits into S, D, R, C, F from the top and works out r, c, p and e: equations (4), (5) and (6).
pub fn quantities(bits: &[bool]) -> Quantities {
    let (sign_bit, rest) = bits.split_at(1);
    let (direction_bit, rest) = rest.split_at(1);
    let (regime_bits, rest) = rest.split_at(3);
    let sign = uint(sign_bit);
    let direction = uint(direction_bit);

    let regime = if direction == 0 { uint(&complement(regime_bits)) } else { uint(regime_bits) };
    assert!((0..=7).contains(&regime));

    let (characteristic_bits, fraction_bits) = rest.split_at(regime as usize);
    let characteristic = if direction == 0 {
        -small_power_of_two(regime + 1) + 1 + uint(characteristic_bits)
    } else {
        small_power_of_two(regime) - 1 + uint(characteristic_bits)
    };
    assert!((-255..=254).contains(&characteristic));

    let fraction_count = bits.len() as i64 - regime - 5;
    assert!(fraction_count == fraction_bits.len() as i64);

    // Equation (6) has (-1)^S * (c + S); (-1)^S is 1 where S = 0 and -1 where S = 1.
    let sign_factor = if sign == 0 { 1 } else { -1 };
    let exponent = sign_factor * (characteristic + sign);
    assert!((-255..=254).contains(&exponent));

    Quantities { sign, regime, fraction_count, fraction: uint(fraction_bits), characteristic, exponent }
}

/// The value of a word of a good width: equation (7).
pub fn value(width: u32, word: u64) -> Value {
    let bits = bits_of(width, word);
    let all_but_the_sign_are_zero = bits[1..].iter().all(|&bit| !bit);
    if all_but_the_sign_are_zero {
        let sign_is_set = bits[0];
        return if sign_is_set { Value::NaR } else { Value::Number(Whole::from_signed(0)) };
    }
    // Definition 2 has [(1 - 3S) + uint(F)/2^p] * 2^e.
    // Times 2^307 this is [(1 - 3S) * 2^p + uint(F)] * 2^(e - p + 307).
    let word_is = quantities(&bits);
    // The significand in the brackets is at most 2 * 2^p in size, and p is at most 59.
    let significand = (1 - 3 * word_is.sign) * small_power_of_two(word_is.fraction_count) + word_is.fraction;
    let scale = word_is.exponent - word_is.fraction_count + SCALE;
    let number = Whole::from_signed(significand).times_power_of_two(scale);
    check_number(&word_is, &number);
    Value::Number(number)
}

/// What the papers say of every value that is neither zero nor NaR.
fn check_number(word_is: &Quantities, number: &Whole) {
    // Definition 2: the values lie in (2^-255, 2^255) and, with a minus sign, in (-2^255, -2^-255).
    assert!(number.is_negative() == (word_is.sign == 1));
    let size = number.size();
    assert!(*scaled_power_of_two(-255) < size && size < *scaled_power_of_two(255));
    // Paper 01 writes the exponent as c where S = 0 and as -(c+1) where S = 1, and says that a negative word with F = 0
    // has size 2^(e+1).
    if word_is.sign == 0 {
        assert!(word_is.exponent == word_is.characteristic);
    } else {
        assert!(word_is.exponent == -(word_is.characteristic + 1));
    }
    if word_is.sign == 1 && word_is.fraction == 0 {
        assert!(size == *scaled_power_of_two(word_is.exponent + 1));
    }
}

/// The powers of two from 2^-307 up to 2^255, each times 2^307, in rising order. No size of a value lies outside.
pub static SCALED_POWERS: LazyLock<Vec<Whole>> =
    LazyLock::new(|| (-SCALE..=255).map(|exponent| Whole::power_of_two(exponent + SCALE)).collect());

/// 2^exponent, times 2^307.
pub fn scaled_power_of_two(exponent: i64) -> &'static Whole {
    &SCALED_POWERS[(exponent + SCALE) as usize]
}
