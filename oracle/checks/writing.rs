//! Checks of the papers' statements on writing; written from the papers alone.

use crate::census::writing::Draw;
use crate::exact::number::Whole;
use crate::words::reading::negate;
use crate::words::refusals::{count_of_words, Refusal};
use crate::words::sequence::Sequence;
use crate::words::widths::{largest_word, nar_word, smallest_word};
use crate::writing::answers::{write, Answer, Answers};
use crate::writing::around::{beside, itself, midpoint_above, Beside, Pair};
use crate::writing::nearest::value_of;
use crate::writing::offers::Offer;
use crate::writing::sayings::Saying;
use std::cmp::Ordering;

pub fn check() {
    check_figures();
    check_ends();
    check_every_word_considered();
    check_draws();
    check_refusals();
}

/// The word has the value.
pub fn exactly(word: u64) -> Answers {
    Answers::alike(Ok(word))
}

/// No word has the value, and the nearest is below it.
pub fn below(word: u64) -> Answers {
    only_rounded(word, Saying::Below)
}

/// No word has the value, and the nearest is above it.
pub fn above(word: u64) -> Answers {
    only_rounded(word, Saying::Above)
}

/// No word has the value, which is past the end that this word is.
pub fn past_the_end(word: u64) -> Answers {
    only_rounded(word, Saying::PastTheEnd)
}

fn only_rounded(word: u64, saying: Saying) -> Answers {
    Answers { rounded: Ok(Answer { word, saying }), strict: Err(Refusal::Inexact) }
}

/// The nearest one of two neighbouring positive words, a and a + 1, to a value between theirs: the one is below it, and
/// the other above.
pub fn between(a: u64, word: u64) -> Answers {
    assert!(word == a || word == a + 1);
    if word == a {
        below(word)
    } else {
        above(word)
    }
}

/// The greatest M that paper 01 has.
const MOST: u128 = (1 << 64) - 1;

/// Paper 01, "Figures on either side of the edges" and "Errors that look right", as far as they speak of writing. What
/// is said beside the words follows from their values.
fn check_figures() {
    let figures = [
        (16, (512, 0), exactly(0x5A00)),
        (16, (513, 0), below(0x5A00)),
        (16, (514, 0), exactly(0x5A01)),
        (16, (515, 0), above(0x5A02)),
        (16, (516, 0), exactly(0x5A02)),
        (16, (1023, 0), above(0x5B00)),
        (16, (1024, 0), exactly(0x5B00)),
        (16, (1, 0), exactly(0x4000)),
        (16, (3, -1), exactly(0x4400)),
        (16, (1, -300), past_the_end(0x0001)),
        (16, (17, -259), exactly(0x0001)),
        (16, (1, 300), past_the_end(0x7FFF)),
        (16, (31, 250), exactly(0x7FFF)),
        (8, (7, 0), exactly(0x4F)),
        (8, (8, 0), exactly(0x50)),
        (8, (9, 0), below(0x50)),
        (8, (10, 0), below(0x50)),
        (8, (1, 239), exactly(0x7F)),
        (8, (1, 231), below(0x7E)),
        (8, (1, 223), exactly(0x7E)),
        (8, (1, -239), exactly(0x01)),
        (2, (1, 0), exactly(0b01)),
        (2, (1, -2000), past_the_end(0b01)),
        (2, (MOST, 2000), past_the_end(0b01)),
    ];
    for (width, offer, expected) in figures {
        check_writing(width, offer, expected);
    }
    // The same value offered with other M and k.
    assert!(write(16, &Offer::plus(1, 9)) == exactly(0x5A00));
    assert!(write(16, &Offer::plus(1 << 63, -54)) == exactly(0x5A00));
    // "M = 0 is zero, whichever the sign."
    for width in 2..=64 {
        for k in [i32::MIN, -1, 0, 1, i32::MAX] {
            assert!(write(width, &Offer::plus(0, k)) == exactly(0) && write(width, &Offer::minus(0, k)) == exactly(0));
        }
    }
}

/// Sizes at the ends of every width and past them give the end words of their sign; never zero and never NaR.
fn check_ends() {
    for width in 2..=64 {
        let (smallest, largest) = (smallest_word(width).unwrap(), largest_word(width).unwrap());
        let (least, greatest) = (value_of(width, smallest), value_of(width, largest));
        check_writing(width, itself(&least).unwrap(), exactly(smallest));
        check_writing(width, itself(&greatest).unwrap(), exactly(largest));
        // Past the ends there is no word with the value. writing/offers.rs cuts some of these exponents.
        for offer in [beside(&least).below, (1, -400), (1, -401), (MOST, -1000), (1, i32::MIN), (MOST, i32::MIN)] {
            check_writing(width, offer, past_the_end(smallest));
        }
        for offer in [beside(&greatest).above, (1, 255), (1, 256), (MOST, 1000), (1, i32::MAX), (MOST, i32::MAX)] {
            check_writing(width, offer, past_the_end(largest));
        }
    }
}

/// Asserts the answers with a plus sign, and their negations with a minus sign.
pub fn check_writing(width: u32, (m, k): Pair, expected: Answers) {
    let negated = |answer: Result<Answer, Refusal>| answer.map(|answer| negated_answer(width, answer));
    let with_minus = Answers { rounded: negated(expected.rounded), strict: negated(expected.strict) };
    assert!(write(width, &Offer::plus(m, k)) == expected, "{m} * 2^{k} at width {width}");
    assert!(write(width, &Offer::minus(m, k)) == with_minus, "-{m} * 2^{k} at width {width}");
}

/// "Word below the value, word above it (signed)": what is below a value has its negation above the negated value.
pub fn negated_answer(width: u32, answer: Answer) -> Answer {
    let saying = match answer.saying {
        Saying::Below => Saying::Above,
        Saying::Above => Saying::Below,
        Saying::Exact | Saying::PastTheEnd => answer.saying,
    };
    Answer { word: negate(width, answer.word).unwrap(), saying }
}

/// The answers by the paper's own words, with no order of the words used: every nonzero word of the number's sign is
/// considered, one after the other; the nearest so far is kept, and at a tie the one whose lowest bit is 0. A number is
/// past the end where all of these words have less than its size, or all of them more.
fn answers_over_all_words(width: u32, number: &Whole) -> Answers {
    let mut nearest: Option<(u64, Whole)> = None;
    let mut strict = Err(Refusal::Inexact);
    let (mut one_is_as_large, mut one_is_as_small) = (false, false);
    for word in 0..count_of_words(width) as u64 {
        if word == 0 || word == nar_word(width).unwrap() {
            continue;
        }
        let value = value_of(width, word);
        if value.is_negative() != number.is_negative() {
            continue;
        }
        if value == *number {
            strict = Ok(Answer::exact(word));
        }
        one_is_as_large |= value.size() >= number.size();
        one_is_as_small |= value.size() <= number.size();
        let distance = value.minus(number).size();
        let is_nearer = match &nearest {
            None => true,
            Some((_, least)) => match distance.cmp(least) {
                Ordering::Less => true,
                Ordering::Equal => word % 2 == 0,
                Ordering::Greater => false,
            },
        };
        if is_nearer {
            nearest = Some((word, distance));
        }
    }
    let word = nearest.unwrap().0;
    let saying = if !one_is_as_large || !one_is_as_small {
        Saying::PastTheEnd
    } else if strict.is_ok() {
        Saying::Exact
    } else if value_of(width, word).minus(number).is_negative() {
        Saying::Below
    } else {
        Saying::Above
    };
    Answers { rounded: Ok(Answer { word, saying }), strict }
}

/// Holds one writing, with either sign, against the search over all words.
pub fn check_over_all_words(width: u32, (m, k): Pair) {
    for offer in [Offer::plus(m, k), Offer::minus(m, k)] {
        assert!(write(width, &offer) == answers_over_all_words(width, &offer.number()), "{offer:?} at width {width}");
    }
}

/// Tries this at the widths 2 to 8 for every value and on and beside every midpoint; up to width 16 for some draws.
fn check_every_word_considered() {
    for width in 2..=8 {
        let largest = largest_word(width).unwrap();
        for a in 1..=largest {
            check_over_all_words(width, itself(&value_of(width, a)).unwrap());
            if a < largest {
                let midpoint = midpoint_above(width, a);
                let Beside { below, above } = beside(&midpoint);
                let offers = [itself(&midpoint), Some(below), Some(above)];
                offers.into_iter().flatten().for_each(|offer| check_over_all_words(width, offer));
            }
        }
    }
    for width in 9..=16 {
        let mut sequence = Sequence::new(2000 + width);
        for _place in 0..10 {
            let (m, k) = Draw::next(&mut sequence, width).offer;
            if m != 0 {
                check_over_all_words(width, (m, k));
            }
        }
    }
}

/// At every width, for some draws: the neighbours of the nearest word lie no nearer, and a neighbour that lies as near
/// has the lowest bit 1. As the values increase with the word, the words further off lie further off still.
fn check_draws() {
    for width in 2..=64 {
        let mut sequence = Sequence::new(3000 + width);
        for _place in 0..32 {
            let (m, k) = Draw::next(&mut sequence, width).offer;
            if m == 0 {
                continue;
            }
            let number = Offer::plus(m, k).number();
            let word = write(width, &Offer::plus(m, k)).rounded.unwrap().word;
            let distance_of = |word: u64| value_of(width, word).minus(&number).size();
            for neighbour in [word - 1, word + 1] {
                if neighbour == 0 || neighbour == nar_word(width).unwrap() {
                    continue;
                }
                let order = distance_of(neighbour).cmp(&distance_of(word));
                assert!(order == Ordering::Greater || (order == Ordering::Equal && word % 2 == 0));
            }
            check_writing(width, (m, k), write(width, &Offer::plus(m, k)));
        }
    }
}

/// "A width isn't 2 to 64", whatever is offered.
fn check_refusals() {
    for bad in [0, 1, 65, u32::MAX] {
        for m in [0, 1] {
            assert!(write(bad, &Offer::plus(m, 0)) == Answers::alike(Err(Refusal::Width)));
        }
    }
}
