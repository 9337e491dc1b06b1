// binary64 in and out.
use super::{exactly, read, string_of, with_sign, write_size, Written, INEXACT, PAST_THE_END, TOP, WIDTH};

// A binary64 number as a word; NaN and the infinities give NaR.
#[inline]
pub fn write_binary64(n: u32, strict: bool, x: f64) -> Result<Written, u32> {
    if !(2..=64).contains(&n) {
        return Err(WIDTH);
    }
    let bits = x.to_bits();
    let negative = bits >= TOP;
    let exponent = bits >> 52 & 0x7ff;
    if exponent == 0x7ff {
        return Ok(exactly(1 << (n - 1)));
    }
    if exponent == 0 {
        // Zero, or a number far below the smallest word.
        if bits << 1 == 0 {
            return Ok(exactly(0));
        }
        return if strict { Err(INEXACT) } else { Ok(Written { word: with_sign(n, negative, 1), saying: PAST_THE_END }) };
    }
    write_size(n, strict, negative, exponent as i64 - 1023, TOP | bits << 11)
}

// A word as a binary64 number; NaR gives none.
#[inline]
pub fn take_binary64(n: u32, word: u64) -> Result<Option<f64>, u32> {
    let string = string_of(n, word)?;
    if string == 0 {
        return Ok(Some(0.0));
    }
    if string == TOP {
        return Ok(None);
    }
    let (negative, h, m) = read(string);
    // Only the cast rounds: 2^(h - 63) is a binary64, and the product stays far from both ends.
    let size = m as f64 * f64::from_bits(((h + 960) as u64) << 52);
    Ok(Some(if negative { -size } else { size }))
}
