//! Checks of what a binary64 pattern stands for, and of the nearest pattern; written from the papers alone.

use crate::census::out::chosen_word;
use crate::exact::number::Whole;
use crate::numbers::binary64::{
    binary64_out, finest, nearest_pattern, pattern_of, size_of_pattern, Binary64, INFINITY,
};
use crate::words::sequence::Sequence;
use crate::words::widths::nar_word;
use crate::writing::nearest::value_of;
use std::cmp::Ordering;

pub fn check() {
    check_patterns();
    check_nearest_patterns();
}

/// The numbers of patterns rise with the pattern, over the edge of the subnormal numbers and over every change of the
/// exponent field; and the number of a pattern has that pattern.
fn check_patterns() {
    for exponent_field in 0..2047 {
        let first = pattern_of(false, exponent_field, 0);
        for pattern in [first, first + 1, first + (1 << 51), first + (1 << 52) - 2] {
            assert!(size_of_pattern(pattern) < size_of_pattern(pattern + 1));
        }
        if exponent_field > 0 {
            assert!(size_of_pattern(first - 1) < size_of_pattern(first));
        }
        for pattern in [first, first + 1, first + (1 << 51) + 1, first + (1 << 52) - 2] {
            assert!(nearest_pattern(&size_of_pattern(pattern)) == pattern);
        }
    }
    // One, the least number, and the greatest: (2 - 2^-52) * 2^1023.
    assert!(size_of_pattern(1023 << 52) == Whole::power_of_two(1074));
    assert!(size_of_pattern(0).is_zero() && size_of_pattern(1) == Whole::power_of_two(0));
    let greatest = Whole::power_of_two(1024).minus(&Whole::power_of_two(1023 - 52)).times_power_of_two(1074);
    assert!(size_of_pattern(INFINITY - 1) == greatest);
}

/// "From 58 on it is the nearest binary64, ties to even": the neighbours of the number lie no nearer, and one that lies
/// as near is odd. As numbers rise with the pattern, those further off lie further off still.
fn check_nearest_patterns() {
    for width in 58..=64 {
        let mut sequence = Sequence::new(8100 + width);
        for _place in 0..256 {
            let word = chosen_word(&mut sequence, width);
            if word == 0 || word == nar_word(width).unwrap() {
                continue;
            }
            let Ok(Binary64::Number(pattern)) = binary64_out(width, word) else { panic!("the word is a number") };
            let value = value_of(width, word);
            assert!((pattern >= 1 << 63) == value.is_negative());
            let size = finest(&value.size());
            let distance_of = |pattern: u64| size_of_pattern(pattern).minus(&size).size();
            let pattern = pattern % (1 << 63);
            for neighbour in [pattern - 1, pattern + 1] {
                let order = distance_of(neighbour).cmp(&distance_of(pattern));
                assert!(order == Ordering::Greater || (order == Ordering::Equal && pattern % 2 == 0));
            }
        }
    }
}
