//! The offers made of a size: itself, its leading bits, and what lies beside it; written from the papers alone.
//!
//! docs/CENSUS.md names them, in "Writing and moving" and "Long values". A size is held times 2^400 here too (see
//! offers.rs), and is at least 2^-272. So it has at least 128 bits.

use crate::exact::number::Whole;
use crate::writing::nearest::value_of;
use crate::writing::offers::{size_of, FINE_SCALE};

/// M and k of an offer whose sign is still open.
pub type Pair = (u128, i32);

/// The exact midpoint between the values of the words a and a + 1.
pub fn midpoint_above(width: u32, a: u64) -> Whole {
    value_of(width, a).plus(&value_of(width, a + 1)).divided_by_power_of_two(1)
}

/// "x itself": the M and k with x = M * 2^k and M odd; none where that M is 2^64 or more.
pub fn itself(x: &Whole) -> Option<Pair> {
    let twos = x.count_of_twos();
    let odd = x.divided_by_power_of_two(twos);
    if odd >= Whole::power_of_two(64) {
        return None;
    }
    let (m, k) = (odd.to_unsigned(), (twos - FINE_SCALE) as i32);
    assert!(m % 2 == 1 && size_of(m, k) == *x);
    Some((m, k))
}

/// The leading bits of x, as many as `count` says: M has just so many bits, and M * 2^k is x without all lower bits.
pub fn leading(x: &Whole, count: i64) -> Pair {
    let lower = x.count_of_bits() - count;
    (x.cut_by_power_of_two(lower).to_unsigned(), (lower - FINE_SCALE) as i32)
}

/// The offers on either side of a size x.
pub struct Beside {
    /// "Just below x": the greatest M * 2^k below x with 2^63 <= M < 2^64.
    pub below: Pair,
    /// "Just above x": the least M * 2^k above x with 2^63 <= M < 2^64.
    pub above: Pair,
}

/// The leading 64 bits of x are the greatest such offer that is not above x. With a greater k all of these offers are
/// greater, and with the same k those with a greater M.
pub fn beside(x: &Whole) -> Beside {
    let (m, k) = leading(x, 64);
    let (least, most) = (1 << 63, (1 << 64) - 1);
    let before = if m == least { (most, k - 1) } else { (m - 1, k) };
    let after = if m == most { (least, k + 1) } else { (m + 1, k) };
    let is_x = size_of(m, k) == *x;
    Beside { below: if is_x { before } else { (m, k) }, above: after }
}
