//! Checks of paper 02's Wish 3, the own fraction bits of a reading; written from the papers alone.
//!
//! A count is held against the wish's own rule, with r taken from the value, and against the number of words that share
//! a characteristic. How it was found plays no part here.

use crate::census::out::chosen_word;
use crate::words::reading::{read, Kind, Reading};
use crate::words::refusals::count_of_words;
use crate::words::sequence::Sequence;
use crate::words::values::{small_power_of_two, value};
use crate::words::widths::{largest_word, nar_word};

pub fn check() {
    check_figures();
    check_every_width();
    check_every_word();
    check_chosen_words();
    check_words_of_a_characteristic();
}

fn own_bits(width: u32, word: u64) -> i64 {
    read(width, word).expect("the word is good").own_fraction_bits
}

/// The figures of the wish, and some on either side of them, worked out by hand from S, D and R.
fn check_figures() {
    let figures = [
        // "The printed case of document 01 ends its lines in ` 8` and ` 0`." 512 is 0 1 011, and -512 is 1 0 100.
        (16, 0x5A00, 8),
        (16, 0x8000, 0),
        (16, 0xA600, 8),
        // "Or 0 where that is negative, since appended zeros are no precision": both ends of either sign have r = 7.
        (8, 0x7F, 0),
        (8, 0x01, 0),
        (8, 0x81, 0),
        (8, 0xFF, 0),
        // 1 has r = 0, 2 and 7 have r = 1, 8 has r = 2, and 128 has r = 3.
        (8, 0x40, 3),
        (8, 0x48, 2),
        (8, 0x4F, 2),
        (8, 0x50, 1),
        (8, 0x58, 0),
        (64, 1 << 62, 59),
        // A power of two and its negation can have different r: 2 is 0 1 001, and -2 is 1 0 111.
        (16, 0x4800, 10),
        (16, 0xB800, 11),
        // 2^63, which is too large for a whole number, is 0 1 110, and -2^63 is 1 0 010.
        (16, 0x7000, 5),
        (16, 0x9000, 6),
    ];
    for (width, word, expected) in figures {
        assert!(own_bits(width, word) == expected, "own bits of {word:#x} at width {width}");
    }
}

/// Zero and NaR have 0. 1 has r = 0, and from width 5 up the ends have r = 7. The widths 2 to 5 have no room for a
/// fraction.
fn check_every_width() {
    for width in 2..=64 {
        let (n, nar, largest) = (i64::from(width), nar_word(width).unwrap(), largest_word(width).unwrap());
        assert!(own_bits(width, 0) == 0 && own_bits(width, nar) == 0);
        assert!(own_bits(width, 1 << (width - 2)) == (n - 5).max(0));
        for end in [1, largest, nar + 1, nar + largest] {
            assert!(own_bits(width, end) == (n - 12).max(0));
        }
    }
    for width in 2..=5 {
        (0..count_of_words(width) as u64).for_each(|word| assert!(own_bits(width, word) == 0));
    }
}

/// All words of the widths 2 to 16.
fn check_every_word() {
    for width in 2..=16 {
        (0..count_of_words(width) as u64).for_each(|word| check_word(width, word));
    }
}

/// At some words of the wider widths.
fn check_chosen_words() {
    for width in 17..=64 {
        let mut sequence = Sequence::new(8800 + width);
        (0..64).for_each(|_place| check_word(width, chosen_word(&mut sequence, width)));
    }
}

/// "n - r - 5 for a finite word, or 0 where that is negative, since appended zeros are no precision; and 0 for zero and
/// NaR." From width 12 up nothing is appended, so there it is p.
fn check_word(width: u32, word: u64) {
    let Reading { kind, own_fraction_bits } = read(width, word).expect("the word is good");
    let Kind::Number { p, .. } = kind else {
        assert!(own_fraction_bits == 0, "own bits of {word} at width {width}, zero or NaR");
        return;
    };
    let c = characteristic_of(&kind).expect("it is a number");
    let by_rule = i64::from(width) - regime_of(c) - 5;
    assert!(own_fraction_bits == by_rule.max(0), "own bits of {word} at width {width}");
    assert!(own_fraction_bits <= p && (width < 12 || own_fraction_bits == p));
    if by_rule >= 0 {
        [(width + 1).min(64), 64].into_iter().for_each(|wider| check_appended(width, word, wider));
    }
}

/// Where all bits before the fraction are the word's own, zero bits appended on the right go to the fraction. The value
/// stays.
fn check_appended(width: u32, word: u64, wider: u32) {
    let appended = wider - width;
    let longer = word << appended;
    assert!(value(wider, longer) == value(width, word));
    assert!(own_bits(wider, longer) == own_bits(width, word) + i64::from(appended));
}

/// c of a number, from what was read; none of zero and NaR. It is h where S = 0. Where S = 1, e is -(c+1), and "a
/// negative word with F = 0 has size 2^(e+1)".
fn characteristic_of(kind: &Kind) -> Option<i64> {
    match *kind {
        Kind::Zero | Kind::NaR => None,
        Kind::Number { minus: false, h, .. } => Some(h),
        Kind::Number { minus: true, h, m, p } => {
            let has_no_fraction = m == 1 << p;
            let e = if has_no_fraction { h - 1 } else { h };
            Some(-(e + 1))
        }
    }
}

/// r, from c: with r bits C, c runs from 2^r - 1 to 2^(r+1) - 2 where D = 1, and from 1 - 2^(r+1) to -2^r where D = 0.
fn regime_of(c: i64) -> i64 {
    let has_c = |&r: &i64| {
        let power = small_power_of_two(r);
        (power - 1..=2 * power - 2).contains(&c) || (1 - 2 * power..=-power).contains(&c)
    };
    (0..=7).find(has_c).expect("c runs from -255 to 254")
}

/// With q own fraction bits, 2^q strings of the width have the same sign and c: as many as F has values, or one where no
/// bit of F is the word's own. This is how fine a reading is. All words of the widths 2 to 16 are tried, in their order:
/// zero, the positive ones, NaR, the negative ones. So those that share sign and c stand side by side.
fn check_words_of_a_characteristic() {
    for width in 2..=16 {
        let c_of = |word: u64| characteristic_of(&read(width, word).unwrap().kind);
        let words: Vec<u64> = (0..count_of_words(width) as u64).collect();
        for sharing in words.chunk_by(|&a, &b| c_of(a) == c_of(b)) {
            // Where c is -255, the string with F = 0 is zero or NaR. These two stand alone, and 2^0 is 1.
            let strings = sharing.len() as i64 + i64::from(c_of(sharing[0]) == Some(-255));
            for &word in sharing {
                assert!(strings == small_power_of_two(own_bits(width, word)), "words like {word} at width {width}");
            }
        }
    }
}
