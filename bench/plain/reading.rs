// Reading one word: what it is, and its own fraction bits. Neither the sign nor the direction bit becomes a branch, since nobody can foretell them.
use super::{string_of, TOP};

pub struct Reading {
    pub kind: Kind,
    pub own: u32,
}

// A number is its sign and the size m * 2^(h - p), with 2^p <= m < 2^(p + 1).
pub enum Kind {
    Zero,
    Nar,
    Number { negative: bool, h: i32, m: u64, p: u32 },
}

#[inline]
pub fn read_word(n: u32, word: u64) -> Result<Reading, u32> {
    let string = string_of(n, word)?;
    if string == 0 {
        return Ok(Reading { kind: Kind::Zero, own: 0 });
    }
    if string == TOP {
        return Ok(Reading { kind: Kind::Nar, own: 0 });
    }
    let (down, r) = direction_and_regime(string);
    let bits = ((string ^ down) << 5 >> 1 >> (63 - r)) as i32;
    let c = ((1 << r) - 1 + bits) ^ down as i32;
    let f = string << 5 << r;
    // With sign 1 the fraction counts up from -2: the size is 2 - f, which is 1 + (1 - f), or where f is 0 the next power of two.
    let negative = string >= TOP;
    let h = if negative { -c - (f != 0) as i32 } else { c };
    let fraction = if negative { f.wrapping_neg() } else { f };
    let p = n.max(12) - 5 - r;
    let m = (TOP | fraction >> 1) >> (63 - p);
    Ok(Reading { kind: Kind::Number { negative, h, m, p }, own: n.saturating_sub(5 + r) })
}

// The own fraction bits of a word that is known to be one of the width; zero and NaR have none.
#[inline]
pub fn own_bits(n: u32, word: u64) -> u32 {
    let string = word << (64 - n);
    if string << 1 == 0 {
        return 0;
    }
    n.saturating_sub(5 + direction_and_regime(string).1)
}

// Downward, where the direction bit is 0, regime and characteristic stand there by their complement: the first answer is all ones then, and else 0.
#[inline(always)]
fn direction_and_regime(string: u64) -> (u64, u32) {
    let down = (string >> 62 & 1).wrapping_sub(1);
    (down, ((string ^ down) >> 59 & 7) as u32)
}
