//! Sizes as digits to the base 2^32, the lowest first: their order, sum and difference; written from the papers alone.

use std::cmp::Ordering;

/// Compares two sizes. With no zero digit at the top, more digits means a larger size; with equally many digits, the
/// highest one that differs decides.
pub fn compare_sizes(left: &[u32], right: &[u32]) -> Ordering {
    if left.len() != right.len() {
        return left.len().cmp(&right.len());
    }
    for place in (0..left.len()).rev() {
        if left[place] != right[place] {
            return left[place].cmp(&right[place]);
        }
    }
    Ordering::Equal
}

pub fn add_sizes(left: &[u32], right: &[u32]) -> Vec<u32> {
    let longer = left.len().max(right.len());
    let mut digits = Vec::with_capacity(longer + 1);
    let mut carry: u64 = 0;
    for place in 0..longer {
        let left_digit = u64::from(*left.get(place).unwrap_or(&0));
        let right_digit = u64::from(*right.get(place).unwrap_or(&0));
        let sum = left_digit + right_digit + carry;
        digits.push(sum as u32);
        carry = sum >> 32;
    }
    digits.push(carry as u32);
    digits
}

/// The larger size less the smaller one, as on paper: a digit that is too small borrows from the next.
pub fn subtract_sizes(larger: &[u32], smaller: &[u32]) -> Vec<u32> {
    let mut digits = Vec::with_capacity(larger.len());
    let mut borrow: i64 = 0;
    for place in 0..larger.len() {
        let smaller_digit = i64::from(*smaller.get(place).unwrap_or(&0));
        let mut difference = i64::from(larger[place]) - smaller_digit - borrow;
        borrow = 0;
        if difference < 0 {
            difference += 1 << 32;
            borrow = 1;
        }
        digits.push(difference as u32);
    }
    assert!(borrow == 0, "the size taken away is not the smaller one");
    digits
}
