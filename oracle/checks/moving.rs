//! Checks of the papers' statements on moving; written from the papers alone.

use crate::census::writing::Draw;
use crate::checks::writing::{above, below, exactly};
use crate::words::reading::{read, Kind};
use crate::words::refusals::Refusal;
use crate::words::sequence::Sequence;
use crate::words::values::{value, Value};
use crate::words::widths::nar_word;
use crate::writing::answers::{write, Answers};
use crate::writing::moving::move_word;
use crate::writing::offers::{fine, Offer};

pub fn check() {
    check_figures();
    check_moves();
    check_refusals();
}

/// "513 + 2^-20 at width 64 goes to 514 at 16; through 32 it would go to 512."
fn check_figures() {
    let word = write(64, &Offer::plus((513 << 20) + 1, -20)).strict.unwrap().word;
    assert!(move_word(64, 16, word) == above(0x5A01));
    let through = move_word(64, 32, word).rounded.unwrap().word;
    assert!(move_word(64, 32, word) == below(through));
    assert!(move_word(32, 16, through) == below(0x5A00));
    assert!(move_word(16, 8, 0x8000) == exactly(0x80));
    assert!(move_word(16, 64, 0) == exactly(0));
}

/// Moves, at some words of every width: to the same width and wider ones the value stays the same, and back comes the
/// same word; and a move is the writing of what was read.
fn check_moves() {
    for from in 2..=64 {
        let mut sequence = Sequence::new(4000 + from);
        for _place in 0..32 {
            let Draw { word, target, .. } = Draw::next(&mut sequence, from);
            let answers = move_word(from, target, word);
            match read(from, word).unwrap().kind {
                Kind::NaR => assert!(answers == Answers::alike(nar_word(target))),
                Kind::Zero => assert!(answers == exactly(0)),
                Kind::Number { minus, h, m, p } => {
                    let offer = Offer { minus, m: u128::from(m), k: (h - p) as i32 };
                    assert!(Value::Number(offer.number()) == fine_or_nar(from, word));
                    assert!(answers == write(target, &offer));
                }
            }
            if target >= from {
                let moved = answers.strict.expect("going wider never changes a value").word;
                assert!(answers == exactly(moved) && value(target, moved) == value(from, word));
                assert!(move_word(target, from, moved) == exactly(word));
            }
        }
    }
}

/// The value of a word, held times 2^400 as an offer is.
fn fine_or_nar(width: u32, word: u64) -> Value {
    match value(width, word) {
        Value::NaR => Value::NaR,
        Value::Number(number) => Value::Number(fine(&number)),
    }
}

/// "Order for words: WIDTH (source, then target), ROOM, STRAY, NAR, OVER, INEXACT."
fn check_refusals() {
    let refused = |refusal: Refusal| Answers::alike(Err(refusal));
    for bad in [0, 1, 65, u32::MAX] {
        assert!(move_word(bad, 16, 1) == refused(Refusal::Width));
        assert!(move_word(16, bad, 0x8000) == refused(Refusal::Width));
        assert!(move_word(16, bad, 0x10000) == refused(Refusal::Width));
    }
    assert!(move_word(16, 8, 0x10000) == refused(Refusal::Stray));
    assert!(move_word(8, 16, 0x100) == refused(Refusal::Stray));
}
