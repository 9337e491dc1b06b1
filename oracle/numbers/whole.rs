//! Whole numbers in and out (paper 01, "Whole numbers and binary64"; out by paper 02, Wish 2); written from the papers
//! alone.

use crate::exact::number::Whole;
use crate::words::refusals::{accept_word, make_width, Refusal};
use crate::words::values::{value, Value, SCALE};
use crate::writing::answers::{write_number, Answers};
use crate::writing::offers::FINE_SCALE;
use std::cmp::Ordering;

/// "In: a signed 64-bit whole number, rounded or strict, by the rules above."
pub fn whole_in(width: u32, whole: i64) -> Answers {
    match make_width(width) {
        Err(refusal) => Answers::alike(Err(refusal)),
        Ok(width) => write_number(width, &Whole::from_signed(whole).times_power_of_two(FINE_SCALE)),
    }
}

/// "The trade rounds to the nearest, halves to the even number." "OVER is judged on the rounded number; the order of
/// refusals stands."
pub fn whole_out_nearest(width: u32, word: u64) -> Result<i64, Refusal> {
    let number = number_of(width, word)?;
    nearest_whole(&number).to_signed().ok_or(Refusal::Over)
}

/// "Strict stays": "Out, strict: INEXACT if the value isn't whole." All other refusals come before, as they do by
/// nearest. A value that is whole has distance 0 from itself; so where there is one, it is the nearest.
pub fn whole_out_strict(width: u32, word: u64) -> Result<i64, Refusal> {
    let whole = whole_out_nearest(width, word)?;
    let is_the_value = scaled(&Whole::from_signed(whole)) == number_of(width, word)?;
    if is_the_value {
        Ok(whole)
    } else {
        Err(Refusal::Inexact)
    }
}

/// The value of a word of which a whole number is wanted, times 2^307, or the refusal that comes first: "WIDTH (source,
/// then target), ROOM, STRAY, NAR". No slice is lent here, and there is one width.
fn number_of(width: u32, word: u64) -> Result<Whole, Refusal> {
    accept_word(width, word)?;
    match value(width, word) {
        Value::NaR => Err(Refusal::NaR),
        Value::Number(number) => Ok(number),
    }
}

/// The whole number nearest to a value, which is held times 2^307; halfway between two, the even one. It can have any
/// size. Of the whole numbers not above the value the greatest is nearest, and of the others the least; so these two
/// are held against each other.
pub fn nearest_whole(value: &Whole) -> Whole {
    let below = greatest_whole_not_above(value);
    let above = below.plus(&Whole::from_signed(1));
    let distance_below = value.minus(&scaled(&below));
    let distance_above = scaled(&above).minus(value);
    assert!(!distance_below.is_negative() && !distance_above.is_negative() && !distance_above.is_zero());
    match distance_below.cmp(&distance_above) {
        Ordering::Less => below,
        Ordering::Greater => above,
        Ordering::Equal if below.is_even() => below,
        Ordering::Equal => above,
    }
}

/// The greatest whole number that is not above a value, which is held times 2^307. The division drops what is left
/// over. So of a negative value that isn't whole its answer lies above the value, and the one before it is wanted.
fn greatest_whole_not_above(value: &Whole) -> Whole {
    let divided = value.cut_by_power_of_two(SCALE);
    if scaled(&divided) <= *value {
        divided
    } else {
        divided.minus(&Whole::from_signed(1))
    }
}

/// A whole number times 2^307, to stand beside values.
fn scaled(whole: &Whole) -> Whole {
    whole.times_power_of_two(SCALE)
}
