//! Checks of paper 02's Wish 14, the laws of moving; written from the papers alone.
//!
//! Every move here is rounded. The laws are tried at all words of the widths 2 to 10, moved to the widths 2 to 16, and
//! at some draws of every width. The letters are those of docs/CENSUS.md: a word w of width a is moved to the width b,
//! by way of the width c or with the width c after it, and x is another word of width a.

use crate::census::laws::{chosen_way, moved, Way};
use crate::checks::writing::{above, below, negated_answer};
use crate::numbers::whole::whole_in;
use crate::words::reading::{compare, negate};
use crate::words::refusals::count_of_words;
use crate::words::sequence::{low_bits, Sequence};
use crate::words::widths::{largest_word, nar_word, smallest_word};
use crate::writing::answers::{write, Answer};
use crate::writing::moving::move_word;
use crate::writing::offers::Offer;
use crate::writing::sayings::Saying;

pub fn check() {
    check_figures();
    check_same_width();
    check_ways_back();
    check_negations();
    check_orders();
    check_middle_widths();
    check_draws();
}

/// All words of the widths 2 to 10.
fn every_word() -> impl Iterator<Item = (u32, u64)> {
    (2..=10).flat_map(|a| (0..count_of_words(a) as u64).map(move |w| (a, w)))
}

/// "With document 01's 513 + 2^-20, that a move through a narrower middle width need not equal the direct move": both
/// moves by way of 32 give a word below the value, and the direct move gives the one above it.
fn check_figures() {
    let w = write(64, &Offer::plus((513 << 20) + 1, -20)).strict.unwrap().word;
    let word_of = |width, whole| whole_in(width, whole).strict.unwrap().word;
    assert!(move_word(64, 32, w) == below(word_of(32, 513)));
    assert!(move_word(32, 16, word_of(32, 513)) == below(word_of(16, 512)));
    assert!(move_word(64, 16, w) == above(word_of(16, 514)));
    for (a, b, w) in [(64, 32, w), (32, 16, word_of(32, 513)), (64, 16, w)] {
        check_negation((a, b), w);
    }
}

/// A move "reads at a and writes at b". Where b is a, the word itself has the value.
fn check_same_width() {
    for (a, w) in every_word() {
        assert!(moved(a, a, w) == Ok(Answer::exact(w)), "{w} of width {a} to its own width");
    }
}

fn check_ways_back() {
    for (a, w) in every_word() {
        for b in 2..=16 {
            for c in [b, b + 1, 16, 32, 64].into_iter().filter(|&c| c >= b) {
                check_way_back((a, b, c), w);
            }
        }
    }
}

/// "For every word and widths a, b and c with c at least b: a rounded move from a to b, then to c, then rounded back to
/// b, equals the first move alone." The last move is exact, whatever the first one says: it starts from the value of a
/// word of its target width.
fn check_way_back((a, b, c): (u32, u32, u32), w: u64) {
    let u = moved(a, b, w).unwrap().word;
    let v = moved(b, c, u).unwrap().word;
    assert!(moved(c, b, v) == Ok(Answer::exact(u)), "{w} of width {a} to {b}, then to {c} and back");
}

fn check_negations() {
    for (a, w) in every_word() {
        for b in 2..=16 {
            check_negation((a, b), w);
        }
    }
}

/// "A rounded move of a negated word is the negation of the moved word, for zero and NaR too." Below and above are
/// exchanged in what is said.
fn check_negation((a, b): (u32, u32), w: u64) {
    let of_negation = moved(a, b, negate(a, w).unwrap());
    let negated = moved(a, b, w).map(|answer| negated_answer(b, answer));
    assert!(of_negation == negated, "the negation of {w} of width {a} to {b}");
}

/// Every word beside the next one, as the words run round, and beside some that mostly lie far off.
fn check_orders() {
    for (a, w) in every_word() {
        let (smallest, largest, nar) = (smallest_word(a).unwrap(), largest_word(a).unwrap(), nar_word(a).unwrap());
        for x in [low_bits(w + 1, a), 0, smallest, largest, nar, nar + 1, negate(a, w).unwrap()] {
            for b in 2..=16 {
                check_order((a, b), w, x);
            }
        }
    }
}

/// "For two words of one width, the order of their moved words is never the reverse of their own order." NaR is below
/// everything, before the move and after it.
fn check_order((a, b): (u32, u32), w: u64, x: u64) {
    let own = compare(a, w, x).unwrap();
    let of_moved = compare(b, moved(a, b, w).unwrap().word, moved(a, b, x).unwrap().word).unwrap();
    assert!(own * of_moved != -1, "{w} and {x} of width {a} to {b}");
}

fn check_middle_widths() {
    for (a, w) in every_word() {
        for c in (2..=16).chain([32, 64]) {
            for b in 2..=16 {
                check_middle_width((a, b, c), w);
            }
        }
    }
}

/// A middle width that is at least as wide as the source has the value: "Going wider never changes a value." Where a
/// middle width has it, the move from there is the direct move, with what that says.
fn check_middle_width((a, b, c): (u32, u32, u32), w: u64) {
    let middle = moved(a, c, w).unwrap();
    assert!(c < a || middle.saying == Saying::Exact, "{w} of width {a} to {c}");
    if middle.saying == Saying::Exact {
        assert!(moved(c, b, middle.word) == moved(a, b, w), "{w} of width {a} through {c} to {b}");
    }
}

/// The draws of part 58, which have all widths.
fn check_draws() {
    for a in 2..=64 {
        let mut sequence = Sequence::new(9400 + a);
        for _place in 0..64 {
            let Way { b, c, w, x, .. } = chosen_way(&mut sequence, a);
            assert!(moved(a, a, w) == Ok(Answer::exact(w)));
            check_way_back((a, b.min(c), b.max(c)), w);
            check_negation((a, b), w);
            check_order((a, b), w, x);
            check_middle_width((a, b, c), w);
        }
    }
}
