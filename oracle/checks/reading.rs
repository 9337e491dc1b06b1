//! Checks of the papers' statements on reading, order and the limits; written from the papers alone.

use crate::exact::number::Whole;
use crate::exact::search::last_not_above;
use crate::words::reading::{order, read, Kind, Reading};
use crate::words::refusals::{count_of_words, make_width, Refusal};
use crate::words::values::{value, Value, SCALE};
use crate::words::widths::{exact_count_limit, largest_word, nar_word, smallest_word};
use std::cmp::Ordering;

pub fn check() {
    check_figures();
    check_order_and_widening();
    check_end_words();
    check_limits();
}

/// significand * 2^exponent as a value.
fn number(significand: i64, exponent: i64) -> Value {
    Value::Number(Whole::from_signed(significand).times_power_of_two(exponent + SCALE))
}

/// The figures of paper 01, "Figures on either side of the edges", as far as they speak of reading.
fn check_figures() {
    let at_16 = [
        (0x4000, number(1, 0)),
        (0xC000, number(-1, 0)),
        (0x4400, number(3, -1)),
        (0xBC00, number(-3, -1)),
        (0x3800, number(1, -1)),
        (0x4800, number(2, 0)),
        (0x4A00, number(3, 0)),
        (0x0001, number(17, -259)),
        (0x7FFF, number(31, 250)),
        (0x8000, Value::NaR),
        (0x5A00, number(512, 0)),
        (0x5A01, number(514, 0)),
        (0x5A02, number(516, 0)),
        (0x5B00, number(1024, 0)),
    ];
    for (word, expected) in at_16 {
        assert!(value(16, word) == expected, "word {word:#06x} of width 16");
    }
    let at_8 = [
        (0x4F, number(7, 0)),
        (0x50, number(8, 0)),
        (0x7F, number(1, 239)),
        (0x7E, number(1, 223)),
        (0x01, number(1, -239)),
    ];
    for (word, expected) in at_8 {
        assert!(value(8, word) == expected, "word {word:#04x} of width 8");
    }
    assert!(value(2, 0b01) == number(1, 0));
    assert!(value(2, 0b11) == number(-1, 0));
    assert!(value(2, 0b10) == Value::NaR);
    assert!(value(12, 0xFFF) == number(-1, -254));

    // Whole answers of reading, worked out by hand. The negative words are the ones that are easy to get wrong: 0xC000
    // and 0xFFF have F = 0, and their h is e + 1, not e. Below width 12 p counts the appended zeros too, and the own
    // fraction bits don't: 0x4F is 0 1 001 1 11, with 0000 appended.
    let readings = [
        (16, 0x0000, Kind::Zero, 0),
        (16, 0x8000, Kind::NaR, 0),
        (16, 0x4400, Kind::Number { minus: false, h: 0, m: 3072, p: 11 }, 11),
        (16, 0xBC00, Kind::Number { minus: true, h: 0, m: 3072, p: 11 }, 11),
        (16, 0xC000, Kind::Number { minus: true, h: 0, m: 2048, p: 11 }, 11),
        (16, 0x0001, Kind::Number { minus: false, h: -255, m: 17, p: 4 }, 4),
        (16, 0x7FFF, Kind::Number { minus: false, h: 254, m: 31, p: 4 }, 4),
        (12, 0xFFF, Kind::Number { minus: true, h: -254, m: 1, p: 0 }, 0),
        (8, 0x4F, Kind::Number { minus: false, h: 2, m: 112, p: 6 }, 2),
        (2, 0b01, Kind::Number { minus: false, h: 0, m: 128, p: 7 }, 0),
    ];
    for (width, word, kind, own_fraction_bits) in readings {
        assert!(read(width, word) == Ok(Reading { kind, own_fraction_bits }), "reading {word:#x} of width {width}");
    }

    assert!(make_width(0) == Err(Refusal::Width) && make_width(65) == Err(Refusal::Width));
    assert!(read(16, 0x10000) == Err(Refusal::Stray));

    let limits = [(2, 0), (3, 0), (4, 0), (5, 1), (8, 3), (12, 6), (16, 9), (32, 24), (64, 55)];
    for (width, v) in limits {
        assert!(exact_count_limit(width) == Ok(1 << v), "limit of width {width}");
    }
    for (width, whole) in [(8, 9), (8, 10), (16, 513), (16, 515), (16, 1023)] {
        assert!(!has_word(width, &number(whole, 0)), "{whole} has no word of width {width}");
    }
}

/// Every word of the widths 2 to 16, in the order of the signed words: the values strictly increase, NaR being lowest,
/// and a zero bit appended on the right gives the same value one width up ("going wider never changes a value").
fn check_order_and_widening() {
    for width in 2..=16 {
        let count = count_of_words(width) as u64;
        let nar = count / 2;
        let mut previous = value(width, nar);
        assert!(previous == Value::NaR);
        for step in 1..count {
            let word = (nar + step) % count;
            let present = value(width, word);
            assert!(order(&previous, &present) == Ordering::Less);
            assert!(value(width + 1, 2 * word) == present);
            previous = present;
        }
    }
}

/// The end words of every width: they are positive, and NaR is the word above the largest.
fn check_end_words() {
    for width in 2..=64 {
        let largest = largest_word(width).unwrap();
        let smallest = smallest_word(width).unwrap();
        let nar = nar_word(width).unwrap();
        assert!(value(width, 0) == number(0, 0));
        assert!(order(&value(width, smallest), &number(0, 0)) == Ordering::Greater);
        assert!(order(&value(width, largest), &number(0, 0)) == Ordering::Greater);
        assert!(value(width, nar) == Value::NaR && nar == largest + 1);
    }
}

/// "Every whole number from -2^v to 2^v has a word; 2^v + 1 has none." All of them are tried where the limit is small;
/// above that, the numbers on either side of each power of two.
fn check_limits() {
    for width in 2..=64 {
        let limit = exact_count_limit(width).unwrap() as i64;
        for whole in 0..=limit.min(1024) {
            assert!(has_word(width, &number(whole, 0)) && has_word(width, &number(-whole, 0)));
        }
        let mut power = 1;
        while power <= limit {
            for whole in [power - 1, power, (power + 1).min(limit)] {
                assert!(has_word(width, &number(whole, 0)) && has_word(width, &number(-whole, 0)));
            }
            power *= 2;
        }
        assert!(!has_word(width, &number(limit + 1, 0)) && !has_word(width, &number(-limit - 1, 0)));
    }
}

/// Whether a word of the width has exactly this value. The signed words are in the order of their values, NaR first.
fn has_word(width: u32, wanted: &Value) -> bool {
    let count = count_of_words(width) as i128;
    let value_of_signed = |signed: i128| value(width, signed.rem_euclid(count) as u64);
    let nearest_below = last_not_above(-count / 2, count / 2, |signed| order(&value_of_signed(signed), wanted));
    value_of_signed(nearest_below) == *wanted
}
