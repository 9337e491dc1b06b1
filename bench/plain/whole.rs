// Whole numbers in and out, and the least width for one.
use super::{read, string_of, write, Written, INEXACT, NAR, OVER, TOP};

// A whole number as a word.
#[inline]
pub fn write_whole(n: u32, strict: bool, x: i64) -> Result<Written, u32> {
    write(n, strict, x < 0, x.unsigned_abs(), 0)
}

// The whole number nearest to a word's value, halves to the even one; by the strict rule only where it is the value.
#[inline]
pub fn take_whole(n: u32, strict: bool, word: u64) -> Result<i64, u32> {
    let string = string_of(n, word)?;
    if string == TOP {
        return Err(NAR);
    }
    let (negative, h, m) = read(string);
    // Below a half; the fields of zero's string give a characteristic far below -1, too.
    if h < -1 {
        return if strict && string != 0 { Err(INEXACT) } else { Ok(0) };
    }
    // From 2^55 on every word is a whole number, so nothing is rounded up to 2^63.
    if h > 62 {
        return if negative && h == 63 && m == TOP { Ok(i64::MIN) } else { Err(OVER) };
    }
    let whole = m >> 1 >> (62 - h);
    let below = m << (h + 1);
    if strict && below != 0 {
        return Err(INEXACT);
    }
    // Up past half, and at half from an odd number. Neither this nor the sign becomes a branch, since nobody can foretell them.
    let size = (whole + (below > TOP - (whole & 1)) as u64) as i64;
    Ok(if negative { -size } else { size })
}

// The least width at which a whole number has a word, from its bits and the zeros that they end in.
#[inline]
pub fn shortest_width(x: i64) -> Result<u32, u32> {
    if x == 0 {
        return Ok(2);
    }
    let size = x.unsigned_abs();
    let (bits, zeros) = (64 - size.leading_zeros(), size.trailing_zeros());
    let regime = bits.ilog2();
    // Neither of these becomes a branch, since nobody can foretell them.
    let first = if size.is_power_of_two() { bits.trailing_zeros() } else { 0 };
    let last = if size.is_power_of_two() & bits.is_power_of_two() { (8 + regime).trailing_zeros() } else { 0 };
    let width = 4 + bits + regime - zeros - first - last;
    if width > 64 { Err(INEXACT) } else { Ok(width) }
}
