//! The search in rising values, and the choice between two neighbours there; written from the papers alone.

use crate::exact::number::Whole;
use std::cmp::Ordering;

/// Each place from `first` up to `end`, `end` left out, has a value, and the values strictly rise. This is the last
/// place whose value is not above the one sought. `order` says how the value at a place stands to the one sought; at
/// `first` it must not be above. The range is halved until one place is left, or the very value is met.
pub fn last_not_above(first: i128, end: i128, order: impl Fn(i128) -> Ordering) -> i128 {
    assert!(first < end);
    match order(first) {
        Ordering::Less => (),
        Ordering::Equal => return first,
        Ordering::Greater => panic!("the search does not start below the value sought"),
    }
    let (mut not_above, mut above) = (first, end);
    while above - not_above > 1 {
        let middle = not_above + (above - not_above) / 2;
        match order(middle) {
            Ordering::Less => not_above = middle,
            Ordering::Equal => return middle,
            Ordering::Greater => above = middle,
        }
    }
    not_above
}

/// The nearer one of two neighbouring places, `below` and `below + 1`, to a size that lies between their values or is
/// the first; where it lies halfway, the one whose lowest bit is 0.
pub fn nearer_place(below: u64, size: &Whole, value_at: impl Fn(u64) -> Whole) -> u64 {
    let above = below + 1;
    let distance_below = size.minus(&value_at(below));
    let distance_above = value_at(above).minus(size);
    assert!(!distance_below.is_negative() && !distance_above.is_negative() && !distance_above.is_zero());
    match distance_below.cmp(&distance_above) {
        Ordering::Less => below,
        Ordering::Greater => above,
        Ordering::Equal if below % 2 == 0 => below,
        Ordering::Equal => above,
    }
}
