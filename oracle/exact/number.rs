//! Exact whole numbers of any size; written from the papers alone.
//!
//! Paper 01 says that all statements about values can be made over whole numbers. These are those numbers. Nothing is
//! ever rounded or cut here: an operation gives the exact answer or the program stops.

use crate::exact::sizes::{add_sizes, compare_sizes, subtract_sizes};
use std::cmp::Ordering;

/// A whole number: a sign beside a size.
///
/// The size is held as digits to the base 2^32, the lowest digit first and no zero digit at the top. Zero has no digits
/// and is never negative. So every number has just one form, and equal numbers have equal parts.
#[derive(Clone, Debug, PartialEq, Eq)]
pub struct Whole {
    negative: bool,
    digits: Vec<u32>,
}

impl Whole {
    /// Makes a number of its parts and brings it into its one form.
    fn from_parts(negative: bool, mut digits: Vec<u32>) -> Whole {
        while digits.last() == Some(&0) {
            digits.pop();
        }
        let negative = negative && !digits.is_empty();
        Whole { negative, digits }
    }

    pub fn from_unsigned(number: u128) -> Whole {
        Whole::from_sign_and_size(false, number)
    }

    pub fn from_signed(number: i64) -> Whole {
        Whole::from_sign_and_size(number < 0, u128::from(number.unsigned_abs()))
    }

    fn from_sign_and_size(negative: bool, size: u128) -> Whole {
        let digits = (0..4).map(|place| (size >> (32 * place)) as u32).collect();
        Whole::from_parts(negative, digits)
    }

    pub fn power_of_two(exponent: i64) -> Whole {
        Whole::from_unsigned(1).times_power_of_two(exponent)
    }

    pub fn is_zero(&self) -> bool {
        self.digits.is_empty()
    }

    pub fn is_negative(&self) -> bool {
        self.negative
    }

    /// Whether 2 divides the number. It divides zero.
    pub fn is_even(&self) -> bool {
        self.is_zero() || self.count_of_twos() > 0
    }

    /// The number without its sign.
    pub fn size(&self) -> Whole {
        Whole::from_parts(false, self.digits.clone())
    }

    pub fn negated(&self) -> Whole {
        Whole::from_parts(!self.negative, self.digits.clone())
    }

    pub fn plus(&self, other: &Whole) -> Whole {
        if self.negative == other.negative {
            return Whole::from_parts(self.negative, add_sizes(&self.digits, &other.digits));
        }
        // The signs differ: the larger size gives the sign, and the smaller size is taken away from it.
        if compare_sizes(&self.digits, &other.digits) == Ordering::Less {
            Whole::from_parts(other.negative, subtract_sizes(&other.digits, &self.digits))
        } else {
            Whole::from_parts(self.negative, subtract_sizes(&self.digits, &other.digits))
        }
    }

    pub fn minus(&self, other: &Whole) -> Whole {
        self.plus(&other.negated())
    }

    /// The number times 2^exponent; the exponent is not negative.
    pub fn times_power_of_two(&self, exponent: i64) -> Whole {
        assert!(exponent >= 0, "a whole number is multiplied by a whole power of two");
        let zeros = (exponent / 32) as usize;
        let mut digits = Vec::with_capacity(zeros + self.digits.len() + 1);
        digits.resize(zeros, 0);
        let mut carry: u64 = 0;
        for &digit in &self.digits {
            let shifted = (u64::from(digit) << (exponent % 32)) + carry;
            digits.push(shifted as u32);
            carry = shifted >> 32;
        }
        digits.push(carry as u32);
        Whole::from_parts(self.negative, digits)
    }

    /// The number divided by 2^exponent, what is left over being dropped: the answer is cut toward zero. The exponent
    /// is not negative.
    pub fn cut_by_power_of_two(&self, exponent: i64) -> Whole {
        assert!(exponent >= 0, "a whole number is divided by a whole power of two");
        let mut digits = Vec::new();
        for place in (exponent / 32) as usize..self.digits.len() {
            let low = u64::from(self.digits[place]);
            let high = u64::from(*self.digits.get(place + 1).unwrap_or(&0));
            digits.push((((high << 32) + low) >> (exponent % 32)) as u32);
        }
        Whole::from_parts(self.negative, digits)
    }

    /// The number divided by 2^exponent; the exponent is not negative. Stops the program if there is a remainder.
    pub fn divided_by_power_of_two(&self, exponent: i64) -> Whole {
        let quotient = self.cut_by_power_of_two(exponent);
        assert!(quotient.times_power_of_two(exponent) == *self, "the division leaves a remainder");
        quotient
    }

    /// How many binary digits the size has: b, with 2^(b-1) <= size < 2^b. The number is not zero.
    pub fn count_of_bits(&self) -> i64 {
        let highest_digit = *self.digits.last().expect("zero has no highest binary digit");
        32 * self.digits.len() as i64 - i64::from(highest_digit.leading_zeros())
    }

    /// How often 2 divides the number, which is not zero.
    pub fn count_of_twos(&self) -> i64 {
        let place = self.digits.iter().position(|&digit| digit != 0).expect("zero can be halved without end");
        32 * place as i64 + i64::from(self.digits[place].trailing_zeros())
    }

    /// The same number as a 128-bit unsigned one. Stops the program if it is not in their range.
    pub fn to_unsigned(&self) -> u128 {
        assert!(!self.negative && self.digits.len() <= 4, "the number is outside unsigned 128 bits");
        self.digits.iter().rev().fold(0, |number, &digit| (number << 32) + u128::from(digit))
    }

    /// The same number as a 64-bit signed one, or none if it is not in their range.
    pub fn to_signed(&self) -> Option<i64> {
        let in_range = Whole::from_signed(i64::MIN) <= *self && *self <= Whole::from_signed(i64::MAX);
        if !in_range {
            return None;
        }
        let size = self.size().to_unsigned() as i128;
        Some(if self.negative { -size } else { size } as i64)
    }
}

impl Ord for Whole {
    fn cmp(&self, other: &Whole) -> Ordering {
        match (self.negative, other.negative) {
            (false, false) => compare_sizes(&self.digits, &other.digits),
            (true, true) => compare_sizes(&other.digits, &self.digits),
            (true, false) => Ordering::Less,
            (false, true) => Ordering::Greater,
        }
    }
}

impl PartialOrd for Whole {
    fn partial_cmp(&self, other: &Whole) -> Option<Ordering> {
        Some(self.cmp(other))
    }
}
