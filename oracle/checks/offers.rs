//! Checks of the values offered, and of the offers made of a size; written from the papers alone.

use crate::exact::number::Whole;
use crate::words::values::{value, Value, SCALE};
use crate::words::widths::{largest_word, smallest_word};
use crate::writing::around::{beside, itself, leading, Pair};
use crate::writing::offers::size_of;

pub fn check() {
    check_cuts();
    check_offers_of_a_size();
}

/// What `cut_exponent` says, without a cut: below k = -400 the offer is compared "after both sides are multiplied by
/// 2^-k", as paper 01 has it, and above k = 255 it is taken whole. Width 64 has the words of the least and the greatest
/// size; the words of the other widths lie between, as going wider never changes a value. So these offers are past the
/// end of every width.
fn check_cuts() {
    let size_of_word = |word| match value(64, word) {
        Value::Number(number) => number,
        Value::NaR => panic!("an end word is not NaR"),
    };
    let least = size_of_word(smallest_word(64).unwrap());
    let greatest = size_of_word(largest_word(64).unwrap());
    for k in [-400, -401, -1000, -5000] {
        assert!(Whole::from_unsigned(u128::MAX) < least.times_power_of_two(-k - SCALE));
    }
    for k in [255, 256, 1000, 5000] {
        assert!(Whole::from_unsigned(1).times_power_of_two(k + SCALE) > greatest);
    }
}

/// Offers worked out by hand.
fn check_offers_of_a_size() {
    let least = 1 << 63;
    let most = (1 << 64) - 1;
    let check_beside = |x: &Whole, below: Pair, above: Pair| {
        let offers = beside(x);
        assert!(offers.below == below && offers.above == above);
    };
    let one = size_of(1, 0);
    assert!(itself(&one) == Some((1, 0)));
    check_beside(&one, (most, -64), (least + 1, -63));
    let three = size_of(6, -1);
    assert!(itself(&three) == Some((3, 0)));
    check_beside(&three, ((3 << 62) - 1, -62), ((3 << 62) + 1, -62));
    let longest = size_of(most, 0);
    assert!(itself(&longest) == Some((most, 0)));
    check_beside(&longest, (most - 1, 0), (least, 1));
    let too_long = longest.plus(&size_of(2, 0));
    assert!(itself(&too_long).is_none());
    check_beside(&too_long, (least, 1), (least + 1, 1));
    // 2^64 + 1: the lowest bit is not among the leading 64.
    assert!(leading(&too_long, 64) == (least, 1) && leading(&too_long, 65) == (most + 2, 0));
}
