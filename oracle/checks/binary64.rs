//! Checks of the papers' statements on binary64 in and out; written from the papers alone.

use crate::census::binary64::{chosen_patterns, pattern_of_word};
use crate::census::out::{chosen_word, last_word_of_binade};
use crate::census::whole::chosen_whole;
use crate::checks::sayings::check_said;
use crate::checks::writing::{above, below, exactly, past_the_end};
use crate::exact::number::Whole;
use crate::numbers::binary64::{
    binary64_in, binary64_out, nearest_pattern, size_of_pattern, with_sign, Binary64, INFINITY, NAN,
};
use crate::numbers::whole::whole_in;
use crate::words::reading::negate;
use crate::words::refusals::{count_of_words, Refusal};
use crate::words::sequence::Sequence;
use crate::words::widths::{largest_word, nar_word, smallest_word};
use crate::writing::answers::Answers;

pub fn check() {
    check_figures();
    check_special_numbers();
    check_ways_back();
    check_draws();
    check_refusals();
}

/// Paper 01's figures, with patterns worked out by hand.
fn check_figures() {
    let at_16 = [
        (0x4000, 0x3FF0_0000_0000_0000),
        (0xC000, 0xBFF0_0000_0000_0000),
        (0x4400, 0x3FF8_0000_0000_0000),
        (0xBC00, 0xBFF8_0000_0000_0000),
        (0x3800, 0x3FE0_0000_0000_0000),
        (0x4800, 0x4000_0000_0000_0000),
        (0x4A00, 0x4008_0000_0000_0000),
        (0x5A00, 0x4080_0000_0000_0000),
        // 17 * 2^-259 is (1 + 1/16) * 2^-255, and 31 * 2^250 is (1 + 15/16) * 2^254.
        (0x0001, 0x3001_0000_0000_0000),
        (0x7FFF, 0x4FDF_0000_0000_0000),
    ];
    for (word, pattern) in at_16 {
        assert!(binary64_out(16, word) == Ok(Binary64::Number(pattern)), "{word:#06x} out as binary64");
        assert!(binary64_in(16, pattern) == exactly(word), "{pattern:#018x} in");
    }
    // Numbers that have no word of width 16: 513, 515 and 1023; 2^-300 and 2^300, which lie past the ends.
    for (pattern, expected) in [
        (0x4080_0800_0000_0000, below(0x5A00)),
        (0x4080_1800_0000_0000, above(0x5A02)),
        (0x408F_F800_0000_0000, above(0x5B00)),
        (0x2D30_0000_0000_0000, past_the_end(0x0001)),
        (0x52B0_0000_0000_0000, past_the_end(0x7FFF)),
        // -513 and -515.
        (0xC080_0800_0000_0000, above(0xA600)),
        (0xC080_1800_0000_0000, below(0xA5FE)),
    ] {
        assert!(binary64_in(16, pattern) == expected, "{pattern:#018x} in");
    }
    // The word of 1 at width n is 2^(n-2), and its fraction has n - 5 bits: from width 58 on that is one bit and more
    // beyond the 52 of binary64. All fraction bits set lie halfway at 58 and nearer to 2 above that.
    let one = 0x3FF0_0000_0000_0000;
    let two = 0x4000_0000_0000_0000;
    for (width, word, pattern) in [
        (57, (1 << 55) + 1, one + 1),
        (57, last_word_of_binade(57, 0), two - 1),
        (58, (1 << 56) + 1, one),
        (58, (1 << 56) + 2, one + 1),
        (58, (1 << 56) + 3, one + 2),
        (58, last_word_of_binade(58, 0), two),
        (58, last_word_of_binade(58, 0) - 1, two - 1),
        (59, last_word_of_binade(59, 0), two),
        (59, last_word_of_binade(59, 0) - 1, two),
        (59, last_word_of_binade(59, 0) - 2, two - 1),
        (64, (1 << 62) + 63, one),
        (64, (1 << 62) + 64, one),
        (64, (1 << 62) + 65, one + 1),
        (64, (1 << 62) + 191, one + 1),
        (64, (1 << 62) + 192, one + 2),
        (64, last_word_of_binade(64, 0), two),
    ] {
        assert!(binary64_out(width, word) == Ok(Binary64::Number(pattern)), "{word} of width {width} out as binary64");
        let negated = negate(width, word).unwrap();
        assert!(binary64_out(width, negated) == Ok(Binary64::Number(with_sign(true, pattern))));
    }
}

/// "NaN and both infinities give NaR, both zeros give zero." All else gives a word that is neither, and numbers past
/// the ends the end words.
fn check_special_numbers() {
    for width in 2..=64 {
        let nar = nar_word(width).unwrap();
        for pattern in [INFINITY, INFINITY + 1, NAN, NAN + 1, (1 << 63) - 1] {
            for minus in [false, true] {
                assert!(binary64_in(width, with_sign(minus, pattern)) == exactly(nar));
            }
        }
        assert!(binary64_in(width, with_sign(false, 0)) == exactly(0));
        assert!(binary64_in(width, with_sign(true, 0)) == exactly(0));
        let (smallest, largest) = (smallest_word(width).unwrap(), largest_word(width).unwrap());
        let at_end = [smallest, largest].map(|word| pattern_of_word(width, word));
        for (pattern, word, is_exact) in [
            (1, smallest, false),
            ((1 << 52) - 1, smallest, false),
            (1 << 52, smallest, false),
            (at_end[0] - 1, smallest, false),
            (at_end[0], smallest, true),
            (at_end[1], largest, true),
            (at_end[1] + 1, largest, false),
            (INFINITY - 1, largest, false),
        ] {
            for (minus, word) in [(false, word), (true, negate(width, word).unwrap())] {
                let expected = if is_exact { exactly(word) } else { past_the_end(word) };
                assert!(binary64_in(width, with_sign(minus, pattern)) == expected);
            }
        }
    }
}

/// Ways back: up to width 57 a word out as binary64 goes in again as the same word; and a whole number that is a
/// binary64 number goes in by either call as the same word.
fn check_ways_back() {
    let comes_back = |width: u32, word: u64| match binary64_out(width, word).unwrap() {
        Binary64::NoReading => assert!(word == nar_word(width).unwrap()),
        Binary64::Number(pattern) => assert!(binary64_in(width, pattern) == exactly(word)),
    };
    for width in 2..=12 {
        (0..count_of_words(width) as u64).for_each(|word| comes_back(width, word));
    }
    for width in 13..=57 {
        let mut sequence = Sequence::new(8200 + width);
        (0..64).for_each(|_place| comes_back(width, chosen_word(&mut sequence, width)));
    }
    for width in 2..=64 {
        let mut sequence = Sequence::new(8300 + width);
        for _place in 0..64 {
            let whole = chosen_whole(&mut sequence);
            let size = Whole::from_signed(whole).size().times_power_of_two(1074);
            let pattern = nearest_pattern(&size);
            if size_of_pattern(pattern) == size {
                assert!(binary64_in(width, with_sign(whole < 0, pattern)) == whole_in(width, whole));
            }
        }
    }
}

/// Whatever is drawn for part 23: a number that is not zero goes in as a word of its sign, and all else does not. "NaR
/// and zero are exact" (paper 02, Wish 4), and of the others the saying fits the value.
fn check_draws() {
    for width in 2..=64 {
        let nar = nar_word(width).unwrap();
        let mut sequence = Sequence::new(8400 + width);
        for pattern in (0..64).flat_map(|_place| chosen_patterns(&mut sequence, width)) {
            let (minus, size) = (pattern >= 1 << 63, pattern % (1 << 63));
            let answers = binary64_in(width, pattern);
            let word = answers.rounded.unwrap().word;
            if size == 0 {
                assert!(answers == exactly(0));
            } else if size >= INFINITY {
                assert!(answers == exactly(nar));
            } else if minus {
                assert!(word > nar);
                check_said(width, &size_of_pattern(size).negated(), answers);
            } else {
                assert!(0 < word && word < nar);
                check_said(width, &size_of_pattern(size), answers);
            }
        }
    }
}

/// WIDTH comes first, then STRAY; NaR and zero have answers of their own.
fn check_refusals() {
    for bad in [0, 1, 65, u32::MAX] {
        for pattern in [0, 1023 << 52, INFINITY, NAN] {
            assert!(binary64_in(bad, pattern) == Answers::alike(Err(Refusal::Width)));
        }
        assert!(binary64_out(bad, u64::MAX) == Err(Refusal::Width));
    }
    for stray in [0x10000, 0x18000, 0x17FFF] {
        assert!(binary64_out(16, stray) == Err(Refusal::Stray));
    }
    for width in 2..=64 {
        assert!(binary64_out(width, nar_word(width).unwrap()) == Ok(Binary64::NoReading));
        assert!(binary64_out(width, 0) == Ok(Binary64::Number(0)));
    }
}
