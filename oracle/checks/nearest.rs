//! Checks of paper 02's Wish 2, whole numbers out by nearest; written from the papers alone.
//!
//! An answer is held against the whole numbers on either side of it, and for small sizes against all that come near.
//! How it was found plays no part here. The values are held times 2^400, as in writing/.

use crate::census::halves::{wholes_below_halves, word_of_half};
use crate::census::out::{chosen_word, word_of_power};
use crate::census::ways::with_negation;
use crate::checks::exact::from_machine;
use crate::exact::number::Whole;
use crate::numbers::whole::{nearest_whole, whole_out_nearest, whole_out_strict};
use crate::words::reading::negate;
use crate::words::refusals::{count_of_words, Refusal};
use crate::words::sequence::Sequence;
use crate::words::values::SCALE;
use crate::words::widths::nar_word;
use crate::writing::answers::{write, Answer};
use crate::writing::nearest::value_of;
use crate::writing::offers::{Offer, FINE_SCALE};
use std::cmp::Ordering;

pub fn check() {
    check_figures();
    check_words_of_figures();
    check_every_word();
    check_every_whole_considered();
    check_chosen_words();
    check_halves();
    check_ends();
}

/// "2.5 goes to 2, 3.5 to 4, -2.5 to -2." By the same rule 0.5 and -0.5 go to 0, 1.5 to 2, -1.5 to -2. At every width
/// that has a word of the number: from width 8 on all of them have one, the positive ones 0x38, 0x44, 0x49 and 0x4B
/// there.
fn check_figures() {
    for (m, whole) in [(1, 0), (3, 2), (5, 2), (7, 4)] {
        for (offer, whole) in [(Offer::plus(m, -1), whole), (Offer::minus(m, -1), -whole)] {
            for width in 2..=64 {
                let answer = write(width, &offer).strict;
                assert!(answer.is_ok() || width < 8, "{offer:?} has a word of width {width}");
                if let Ok(Answer { word, .. }) = answer {
                    assert!(whole_out_nearest(width, word) == Ok(whole), "{offer:?} at width {width}");
                    assert!(whole_out_strict(width, word) == Err(Refusal::Inexact));
                }
            }
        }
    }
}

/// The same figures by their words of width 16, and the words on either side, worked out by hand. After S, D and R,
/// 0x4800 is 2 and has one bit C and ten bits F, so 0x4900 is (1 + 256/1024) * 2. "0x4400 is 1.5; 0xBC00 is -1.5;
/// 0x3800 is 0.5."
fn check_words_of_figures() {
    let figures = [
        (0x37FF, 0),
        (0x3800, 0),
        (0x3801, 1),
        (0x43FF, 1),
        (0x4400, 2),
        (0x4401, 2),
        (0x48FF, 2),
        (0x4900, 2),
        (0x4901, 3),
        (0x4AFF, 3),
        (0x4B00, 4),
        (0x4B01, 4),
    ];
    for (word, whole) in figures {
        assert!(whole_out_nearest(16, word) == Ok(whole), "{word:#06x} out");
        assert!(whole_out_nearest(16, 0x10000 - word) == Ok(-whole), "the negation of {word:#06x} out");
    }
}

/// All words of the widths 2 to 16.
fn check_every_word() {
    for width in 2..=16 {
        (0..count_of_words(width) as u64).for_each(|word| check_word(width, word));
    }
}

/// At some words of the wider widths.
fn check_chosen_words() {
    for width in 17..=64 {
        let mut sequence = Sequence::new(8000 + width);
        (0..64).for_each(|_place| check_word(width, chosen_word(&mut sequence, width)));
    }
}

/// What the papers say of a word that goes out. NaR is held against them in checks/whole.rs.
fn check_word(width: u32, word: u64) {
    if word == nar_word(width).unwrap() {
        return;
    }
    let value = value_of(width, word);
    let nearest = whole_out_nearest(width, word);
    let strict = whole_out_strict(width, word);
    match nearest {
        Ok(whole) => {
            assert!(!rounds_to_over(&value), "{word} of width {width} is over");
            assert!(is_nearest(i128::from(whole), &value), "{whole} is not the nearest to {word} of width {width}");
            let is_whole = fine_whole(i128::from(whole)) == value;
            assert!(strict == if is_whole { Ok(whole) } else { Err(Refusal::Inexact) });
        }
        Err(refusal) => {
            assert!(refusal == Refusal::Over && rounds_to_over(&value), "{word} of width {width} is not over");
            assert!(strict == Err(Refusal::Over));
        }
    }
    check_negation(nearest, whole_out_nearest(width, negate(width, word).unwrap()));
}

/// No whole number on either side is nearer, and where one is as near, this one is even. As distances grow on either
/// side, the whole numbers further off lie further off still.
fn is_nearest(whole: i128, value: &Whole) -> bool {
    let distance = distance_of(whole, value);
    [whole - 1, whole + 1].iter().all(|&neighbour| match distance_of(neighbour, value).cmp(&distance) {
        Ordering::Greater => true,
        Ordering::Equal => whole % 2 == 0,
        Ordering::Less => false,
    })
}

fn distance_of(whole: i128, value: &Whole) -> Whole {
    fine_whole(whole).minus(value).size()
}

/// A whole number times 2^400.
fn fine_whole(whole: i128) -> Whole {
    from_machine(whole).times_power_of_two(FINE_SCALE)
}

/// "OVER is judged on the rounded number." From 2^63 - 1/2 up that is 2^63 or more, the half going to the even 2^63.
/// Only below -2^63 - 1/2 it is less than -2^63, the half going to the even -2^63.
fn rounds_to_over(value: &Whole) -> bool {
    let end = fine_whole(1 << 63);
    let half = Whole::power_of_two(FINE_SCALE - 1);
    *value >= end.minus(&half) || *value < end.negated().minus(&half)
}

/// The negation of a word "negates every other value", and distances and even numbers are the same on either side of
/// zero; so it negates the number out. Only -2^63 has no like.
fn check_negation(answer: Result<i64, Refusal>, of_negation: Result<i64, Refusal>) {
    let over = Err(Refusal::Over);
    match answer {
        Ok(i64::MIN) => assert!(of_negation == over),
        Ok(whole) => assert!(of_negation == Ok(-whole)),
        Err(_) => assert!(of_negation == over || of_negation == Ok(i64::MIN)),
    }
}

/// The nearest whole number by the wish's own words, with no order of the whole numbers used: all from -18 to 18 are
/// considered, one after the other; the nearest so far is kept, and at a tie the even one.
fn nearest_of_all(value: &Whole) -> i64 {
    let mut nearest = (0, value.size());
    for whole in -18..=18 {
        let distance = distance_of(i128::from(whole), value);
        let is_nearer = match distance.cmp(&nearest.1) {
            Ordering::Less => true,
            Ordering::Equal => whole % 2 == 0,
            Ordering::Greater => false,
        };
        if is_nearer {
            nearest = (whole, distance);
        }
    }
    nearest.0
}

/// Tries this at the widths 2 to 12 for every word of size 16 or less.
fn check_every_whole_considered() {
    let sixteen = fine_whole(16);
    for width in 2..=12 {
        for word in (0..count_of_words(width) as u64).filter(|&word| word != nar_word(width).unwrap()) {
            let value = value_of(width, word);
            if value.size() <= sixteen {
                assert!(whole_out_nearest(width, word) == Ok(nearest_of_all(&value)), "{word} of width {width} out");
            }
        }
    }
}

/// The words of docs/CENSUS.md, part 51. The halves up to 63.5 have a word at all of these widths. A half goes to the
/// even one of i and i + 1.
fn check_halves() {
    for width in 17..=64 {
        for i in wholes_below_halves() {
            let a = word_of_half(width, i);
            let is_half = value_of(width, a) == Whole::from_unsigned(2 * i + 1).times_power_of_two(FINE_SCALE - 1);
            assert!(is_half || i > 63);
            if is_half {
                let even = i + i % 2;
                assert!(whole_out_nearest(width, a) == Ok(even as i64), "{i} and a half at width {width}");
            }
            for near in [a - 1, a, a + 1] {
                with_negation(width, i128::from(near)).into_iter().for_each(|word| check_word(width, word));
            }
        }
    }
}

/// OVER "on the rounded number", beside both ends. No word lies there: at width 64, which has the values of all others,
/// from 2^54 up all values are whole. So exact numbers are tried, held times 2^307.
fn check_ends() {
    let first_whole = word_of_power(64, 54);
    assert!(value_of(64, first_whole + 1).minus(&value_of(64, first_whole)) == fine_whole(1));
    let end = Whole::power_of_two(63 + SCALE);
    let half = Whole::power_of_two(SCALE - 1);
    let least = Whole::from_signed(1);
    let signed = |value: &Whole| nearest_whole(value).to_signed();
    assert!(signed(&end).is_none());
    assert!(signed(&end.minus(&half)).is_none());
    assert!(signed(&end.minus(&half).minus(&least)) == Some(i64::MAX));
    assert!(signed(&end.negated()) == Some(i64::MIN));
    assert!(signed(&end.negated().minus(&half)) == Some(i64::MIN));
    assert!(signed(&end.negated().minus(&half).minus(&least)).is_none());
}
