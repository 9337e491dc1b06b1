//! Checks of the exact numbers against the machine's own; written from the papers alone.

use crate::exact::number::Whole;

/// Tries the operations against the machine's own 128-bit numbers, on numbers around the edges of the digits.
pub fn check() {
    let mut samples: Vec<i64> = vec![0, i64::MAX, i64::MIN];
    for exponent in [0, 1, 2, 31, 32, 33, 61, 62] {
        let power: i64 = 1 << exponent;
        samples.extend([power - 1, power, power + 1, -power - 1, -power, 1 - power]);
    }
    let (lowest, highest) = (i128::from(i64::MIN), i128::from(i64::MAX));
    for outside in [lowest - 1, highest + 1, lowest - (1 << 64), highest + (1 << 64)] {
        assert!(from_machine(outside).to_signed().is_none());
    }
    for long in [0, 1, (1 << 64) - 1, 1 << 64, (1 << 96) + 1, 1 << 127, u128::MAX] {
        assert!(Whole::from_unsigned(long).to_unsigned() == long);
    }
    for &a in &samples {
        check_one(a);
        for &b in &samples {
            check_two(a, b);
        }
    }
}

fn check_one(a: i64) {
    let exact = Whole::from_signed(a);
    assert!(exact.is_zero() == (a == 0));
    assert!(exact.is_negative() == (a < 0));
    assert!(exact.is_even() == (a % 2 == 0));
    assert!(exact.size().to_unsigned() == u128::from(a.unsigned_abs()));
    assert!(exact.negated() == from_machine(-i128::from(a)));
    assert!(exact.to_signed() == Some(a));
    for exponent in [0, 1, 31, 32, 33, 63] {
        let product = exact.times_power_of_two(exponent);
        assert!(product == from_machine(i128::from(a) << exponent));
        assert!(product.divided_by_power_of_two(exponent) == exact);
        // The machine's own division cuts toward zero too.
        assert!(exact.cut_by_power_of_two(exponent) == from_machine(i128::from(a) / (1 << exponent)));
    }
    if a != 0 {
        check_bits(&exact);
        check_bits(&exact.times_power_of_two(500));
    }
    // Sizes beyond the machine's numbers: doubling 600 times is the same as one multiplication by 2^600.
    let mut doubled = exact.clone();
    for _ in 0..600 {
        doubled = doubled.plus(&doubled);
    }
    assert!(doubled == exact.times_power_of_two(600));
    assert!(doubled.minus(&doubled).is_zero());
}

/// The count of bits puts the size between two powers of two; without its twos a number is odd.
fn check_bits(exact: &Whole) {
    let size = exact.size();
    let bits = exact.count_of_bits();
    assert!(Whole::power_of_two(bits - 1) <= size && size < Whole::power_of_two(bits));
    let odd = exact.divided_by_power_of_two(exact.count_of_twos());
    let half = odd.cut_by_power_of_two(1);
    assert!(half.plus(&half) != odd);
}

fn check_two(a: i64, b: i64) {
    let (exact_a, exact_b) = (Whole::from_signed(a), Whole::from_signed(b));
    assert!(exact_a.plus(&exact_b) == from_machine(i128::from(a) + i128::from(b)));
    assert!(exact_a.minus(&exact_b) == from_machine(i128::from(a) - i128::from(b)));
    assert!(exact_a.cmp(&exact_b) == a.cmp(&b));
    // The order and the difference must tell the same, also far above the machine's numbers.
    let (high_a, high_b) = (exact_a.times_power_of_two(500), exact_b.times_power_of_two(500));
    assert!((high_a < high_b) == high_a.minus(&high_b).is_negative());
    assert!(high_a.minus(&high_b) == exact_a.minus(&exact_b).times_power_of_two(500));
}

/// A 128-bit number of the machine as an exact one.
pub fn from_machine(number: i128) -> Whole {
    let size = Whole::from_unsigned(number.unsigned_abs());
    if number < 0 {
        size.negated()
    } else {
        size
    }
}
