//! Checks of paper 02's Wish 4, what is said beside a word; written from the papers alone.
//!
//! A saying is held against the words on either side of the one given, in the order of all words of the width, the
//! negative ones before the positive ones. How it was found plays no part here.

use crate::census::ends::offers_around_end;
use crate::census::long::chosen_long;
use crate::census::writing::Draw;
use crate::checks::midpoints::first_neighbours;
use crate::checks::writing::{above, below, check_writing, exactly, past_the_end};
use crate::exact::number::Whole;
use crate::numbers::binary64::{binary64_in, finest, nearest_pattern, with_sign, FINEST_SCALE};
use crate::numbers::whole::whole_in;
use crate::words::refusals::Refusal;
use crate::words::sequence::Sequence;
use crate::words::values::{value, Value};
use crate::words::widths::{largest_word, nar_word, smallest_word};
use crate::writing::answers::{write, Answer, Answers};
use crate::writing::around::{beside, itself};
use crate::writing::moving::move_word;
use crate::writing::nearest::value_of;
use crate::writing::offers::{fine, Offer};
use crate::writing::sayings::Saying;

pub fn check() {
    check_every_way();
    check_ends();
    check_beside_words();
    check_draws();
    check_nar_and_zero();
}

/// "A clerk seeing 512 can't tell a true 512 from a rounded 513." All ways of writing a whole number tell the same: as a
/// value, as a long value, as a whole number, as a binary64 number, and by a move from a width that has it.
fn check_every_way() {
    for (width, whole, expected) in [
        (16, 512, exactly(0x5A00)),
        (16, 513, below(0x5A00)),
        (16, 514, exactly(0x5A01)),
        (16, 515, above(0x5A02)),
        (16, -512, exactly(0xA600)),
        (16, -513, above(0xA600)),
        (16, -514, exactly(0xA5FF)),
        (16, -515, below(0xA5FE)),
        (8, 9, below(0x50)),
        (8, -9, above(0xB0)),
        // From 10, which lies halfway, 12 is as far as 8; from 11 it is nearer, and 0x51 is 12.
        (8, 11, above(0x51)),
        (8, -11, below(0xAF)),
        // Width 2 has only 1 and -1. Width 3 ends at 2^15.
        (2, 1, exactly(0b01)),
        (2, 3, past_the_end(0b01)),
        (2, -1, exactly(0b11)),
        (2, -3, past_the_end(0b11)),
        (3, 32767, above(0b011)),
        (3, 32768, exactly(0b011)),
        (3, 32769, past_the_end(0b011)),
        (3, -32767, below(0b101)),
        (3, -32768, exactly(0b101)),
        (3, -32769, past_the_end(0b101)),
    ] {
        let (minus, m) = (whole < 0, u128::from(i64::unsigned_abs(whole)));
        let size = Whole::from_unsigned(m).times_power_of_two(FINEST_SCALE);
        let ways = [
            write(width, &Offer { minus, m, k: 0 }),
            write(width, &Offer { minus, m: m << 64, k: -64 }),
            whole_in(width, whole),
            binary64_in(width, with_sign(minus, nearest_pattern(&size))),
            move_word(32, width, whole_in(32, whole).strict.unwrap().word),
            move_word(64, width, whole_in(64, whole).strict.unwrap().word),
        ];
        assert!(ways.iter().all(|&answers| answers == expected), "{whole} at width {width}");
    }
}

/// "When the size is beyond the largest word or is nonzero and short of the smallest": an end word's own size is exact,
/// and the sizes beside it are past the end on one side and within on the other. Width 2 has one positive word, which is
/// both ends.
fn check_ends() {
    for width in 2..=64 {
        let (smallest, largest) = (smallest_word(width).unwrap(), largest_word(width).unwrap());
        let [after_smallest, before_largest] =
            if width == 2 { [past_the_end(1); 2] } else { [below(smallest), above(largest)] };
        let around_smallest = (smallest, past_the_end(smallest), after_smallest);
        let around_largest = (largest, before_largest, past_the_end(largest));
        for (end, just_below, just_above) in [around_smallest, around_largest] {
            let expected = [exactly(end), just_below, just_above, just_below, exactly(end), just_above];
            for (offer, answers) in offers_around_end(&value_of(width, end)).into_iter().zip(expected) {
                check_writing(width, offer, answers);
            }
        }
    }
}

/// A value just above that of a word has the word below it, and one just below that of the next word has that word above
/// it.
fn check_beside_words() {
    for width in 3..=64 {
        for a in first_neighbours(width) {
            let (lower, upper) = (value_of(width, a), value_of(width, a + 1));
            check_writing(width, itself(&lower).unwrap(), exactly(a));
            check_writing(width, beside(&lower).above, below(a));
            check_writing(width, beside(&upper).below, above(a + 1));
        }
    }
}

/// The draws of the parts 10 and 43: writing with either sign, long values, and moves.
fn check_draws() {
    for width in 2..=64 {
        let mut sequence = Sequence::new(9100 + width);
        for _place in 0..64 {
            let Draw { offer, word, target } = Draw::next(&mut sequence, width);
            for (m, k) in [offer, chosen_long(&mut sequence)] {
                for offer in [Offer::plus(m, k), Offer::minus(m, k)] {
                    check_said(width, &finest(&offer.number()), write(width, &offer));
                }
            }
            if let Value::Number(number) = value(width, word) {
                check_said(target, &finest(&fine(&number)), move_word(width, target, word));
            }
        }
    }
}

/// "NaR and zero are exact", from every width to every width.
fn check_nar_and_zero() {
    for from in 2..=64 {
        for to in 2..=64 {
            assert!(move_word(from, to, nar_word(from).unwrap()) == exactly(nar_word(to).unwrap()));
            assert!(move_word(from, to, 0) == exactly(0));
        }
    }
}

/// What the wish says of the answers to an offered number, which is held times 2^1074 and isn't NaR.
pub fn check_said(width: u32, number: &Whole, answers: Answers) {
    let Answer { word, saying } = answers.rounded.expect("every value can be written rounded");
    let value = |word: u64| finest(&value_of(width, word));
    // The words of either sign, lowest value first, run from `lowest` to `last_negative` and from 1 to `largest`.
    let (largest, nar) = (largest_word(width).unwrap(), nar_word(width).unwrap());
    let (lowest, last_negative) = (nar + 1, nar + largest);
    match saying {
        Saying::Exact => assert!(value(word) == *number),
        Saying::Below => {
            assert!(word != last_negative && word != largest, "the next word is one of the same sign");
            assert!(value(word) < *number && *number < value(word + 1));
        }
        Saying::Above => {
            assert!(word != lowest && word != 1, "the word before is one of the same sign");
            assert!(value(word - 1) < *number && *number < value(word));
        }
        Saying::PastTheEnd => {
            let gaps = [
                (lowest, *number < value(lowest)),
                (last_negative, value(last_negative) < *number && number.is_negative()),
                (1, *number < value(1) && !number.is_negative() && !number.is_zero()),
                (largest, value(largest) < *number),
            ];
            assert!(gaps.contains(&(word, true)), "{word} is not the end word beside the number at width {width}");
        }
    }
    // "What the strict rule gives is exact" (docs/CENSUS.md), and what is exact the strict rule gives.
    let strict = if saying == Saying::Exact { Ok(Answer::exact(word)) } else { Err(Refusal::Inexact) };
    assert!(answers.strict == strict);
}
