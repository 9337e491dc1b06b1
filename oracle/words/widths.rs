//! The numbers that belong to a width (paper 01, "Writing a value" and "Whole numbers and binary64"); written from the
//! papers alone.

use crate::words::refusals::{make_width, Refusal};
use crate::words::values::small_power_of_two;

pub fn largest_word(width: u32) -> Result<u64, Refusal> {
    make_width(width)?;
    Ok((1 << (width - 1)) - 1)
}

pub fn smallest_word(width: u32) -> Result<u64, Refusal> {
    make_width(width)?;
    Ok(1)
}

pub fn nar_word(width: u32) -> Result<u64, Refusal> {
    make_width(width)?;
    Ok(1 << (width - 1))
}

/// 2^v, v being the greatest whole number with v >= 1 and v + floor(log2 v) <= n - 4, or 0 if there is none. A v above
/// n cannot satisfy this, so the search ends at n.
pub fn exact_count_limit(width: u32) -> Result<u64, Refusal> {
    make_width(width)?;
    let n = i64::from(width);
    let mut v = 0;
    for candidate in 1..=n {
        if candidate + floor_log2(candidate) <= n - 4 {
            v = candidate;
        }
    }
    Ok(1 << v)
}

/// The greatest whole number whose power of two is not above the given number.
pub fn floor_log2(number: i64) -> i64 {
    let mut exponent = 0;
    while small_power_of_two(exponent + 1) <= number {
        exponent += 1;
    }
    exponent
}
