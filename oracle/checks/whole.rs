//! Checks of the papers' statements on whole numbers in and out; written from the papers alone.

use crate::census::whole::chosen_whole;
use crate::checks::sayings::check_said;
use crate::checks::writing::{above, below, exactly, past_the_end};
use crate::exact::number::Whole;
use crate::numbers::binary64::FINEST_SCALE;
use crate::numbers::whole::{whole_in, whole_out_nearest, whole_out_strict};
use crate::words::refusals::Refusal;
use crate::words::sequence::Sequence;
use crate::words::widths::{exact_count_limit, nar_word};
use crate::writing::answers::Answers;
use crate::writing::nearest::value_of;
use crate::writing::offers::FINE_SCALE;

pub fn check() {
    check_figures();
    check_limits();
    check_brink();
    check_sayings();
    check_refusals();
}

/// Paper 01, "Figures on either side of the edges", as far as they speak of whole numbers.
fn check_figures() {
    let figures_in = [
        (16, 0, exactly(0)),
        (16, 1, exactly(0x4000)),
        (16, -1, exactly(0xC000)),
        (16, 2, exactly(0x4800)),
        (16, 3, exactly(0x4A00)),
        (16, 512, exactly(0x5A00)),
        (16, 513, below(0x5A00)),
        (16, 514, exactly(0x5A01)),
        (16, 515, above(0x5A02)),
        (16, 516, exactly(0x5A02)),
        (16, -512, exactly(0xA600)),
        (16, -513, above(0xA600)),
        (16, -515, below(0xA5FE)),
        (16, 1023, above(0x5B00)),
        (16, 1024, exactly(0x5B00)),
        (8, 7, exactly(0x4F)),
        (8, 8, exactly(0x50)),
        (8, 9, below(0x50)),
        (8, 10, below(0x50)),
        (2, 1, exactly(0b01)),
        (2, 2, past_the_end(0b01)),
        (2, i64::MAX, past_the_end(0b01)),
        (2, -1, exactly(0b11)),
        (2, i64::MIN, past_the_end(0b11)),
    ];
    for (width, whole, expected) in figures_in {
        assert!(whole_in(width, whole) == expected, "{whole} at width {width}");
    }
    // "A tally of 515 had gone onto the tag as 516." The lister's case has 0x5A00 as 512. 1.5, -1.5, 0.5 and -0.5 are
    // halves and go to the even number (paper 02, Wish 2); what is smaller goes to 0.
    let figures_out = [
        (0x5A00, 512, Ok(512)),
        (0x5A02, 516, Ok(516)),
        (0x5B00, 1024, Ok(1024)),
        (0x0000, 0, Ok(0)),
        (0x4000, 1, Ok(1)),
        (0xC000, -1, Ok(-1)),
        (0x4400, 2, Err(Refusal::Inexact)),
        (0xBC00, -2, Err(Refusal::Inexact)),
        (0x3800, 0, Err(Refusal::Inexact)),
        (0xC800, 0, Err(Refusal::Inexact)),
        (0x0001, 0, Err(Refusal::Inexact)),
        (0xFFFF, 0, Err(Refusal::Inexact)),
    ];
    for (word, nearest, strict) in figures_out {
        assert!(whole_out_nearest(16, word) == Ok(nearest) && whole_out_strict(16, word) == strict, "{word:#06x} out");
    }
}

/// "Every whole number from -2^v to 2^v has a word; 2^v + 1 has none", now by the calls; and what has gone in strictly
/// comes out the same.
fn check_limits() {
    for width in 2..=64 {
        let limit = exact_count_limit(width).unwrap() as i64;
        for whole in (0..=limit.min(1024)).chain([limit - 1, limit]) {
            for whole in [whole, -whole] {
                let word = whole_in(width, whole).strict.expect("up to the limit every whole number has a word").word;
                assert!(whole_in(width, whole) == exactly(word));
                assert!(whole_out_nearest(width, word) == Ok(whole) && whole_out_strict(width, word) == Ok(whole));
            }
        }
        for whole in [limit + 1, -limit - 1] {
            assert!(whole_in(width, whole).strict == Err(Refusal::Inexact));
        }
    }
}

/// "A word of value -2^63 goes out; 2^63 is refused 5." From width 4 up there are such words.
fn check_brink() {
    let size = Whole::power_of_two(63 + FINE_SCALE);
    let over = Err(Refusal::Over);
    for width in 4..=64 {
        let (plus, minus) = (7 << (width - 4), 9 << (width - 4));
        assert!(value_of(width, plus) == size && value_of(width, minus) == size.negated());
        assert!(whole_out_nearest(width, minus) == Ok(i64::MIN) && whole_out_strict(width, minus) == Ok(i64::MIN));
        assert!(whole_out_nearest(width, plus) == over && whole_out_strict(width, plus) == over);
        assert!(whole_in(width, i64::MIN) == exactly(minus));
        // 2^63 - 1 has 63 significant bits, more than any word at that place. The words below 2^63 lie further off.
        assert!(whole_in(width, i64::MAX) == above(plus));
        // Before 2^63 on either side the words are whole and go out.
        for word in [plus - 1, minus + 1] {
            let whole = whole_out_nearest(width, word).expect("the number is within signed 64 bits");
            assert!(Whole::from_signed(whole).times_power_of_two(FINE_SCALE) == value_of(width, word));
            assert!(whole_out_strict(width, word) == Ok(whole));
        }
        // Past 2^63 on either side no whole number goes out.
        if width > 4 {
            for word in [plus + 1, minus - 1] {
                assert!(whole_out_nearest(width, word) == over && whole_out_strict(width, word) == over);
            }
        }
    }
    // Widths 2 and 3 have no size above 2^15.
    assert!(whole_out_strict(2, 0b01) == Ok(1) && whole_out_strict(3, 0b011) == Ok(1 << 15));
    assert!(whole_in(3, 1 << 15) == exactly(0b011) && whole_in(3, -1 << 15) == exactly(0b101));
    assert!(whole_in(3, i64::MAX) == past_the_end(0b011) && whole_in(3, i64::MIN) == past_the_end(0b101));
}

/// Paper 02, Wish 4, of the numbers that part 22 draws.
fn check_sayings() {
    for width in 2..=64 {
        let mut sequence = Sequence::new(9200 + width);
        for _place in 0..64 {
            let whole = chosen_whole(&mut sequence);
            check_said(width, &Whole::from_signed(whole).times_power_of_two(FINEST_SCALE), whole_in(width, whole));
        }
    }
}

/// "Order for words: WIDTH (source, then target), ROOM, STRAY, NAR, OVER, INEXACT."
fn check_refusals() {
    let refused_out = |width: u32, word: u64, refusal: Refusal| {
        assert!(whole_out_nearest(width, word) == Err(refusal) && whole_out_strict(width, word) == Err(refusal));
    };
    for bad in [0, 1, 65, u32::MAX] {
        assert!(whole_in(bad, 515) == Answers::alike(Err(Refusal::Width)));
        refused_out(bad, u64::MAX, Refusal::Width);
    }
    // The second of these would be NaR without its stray bit, and the third too large.
    for stray in [0x10000, 0x18000, 0x17FFF] {
        refused_out(16, stray, Refusal::Stray);
    }
    for width in 2..=64 {
        refused_out(width, nar_word(width).unwrap(), Refusal::NaR);
    }
    refused_out(16, 0x7FFF, Refusal::Over);
}
