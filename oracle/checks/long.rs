//! Checks of the papers' statements on writing, now of long values; written from the papers alone.

use crate::census::long::{chosen_long, offers_around_midpoint};
use crate::census::writing::Draw;
use crate::checks::midpoints::first_neighbours;
use crate::checks::writing::{above, below, between, check_over_all_words, check_writing, exactly, past_the_end};
use crate::words::sequence::Sequence;
use crate::words::widths::{largest_word, smallest_word};
use crate::writing::answers::write;
use crate::writing::offers::Offer;

pub fn check() {
    check_figures();
    check_midpoints();
    check_every_word_considered();
    check_same_value();
    check_ends();
}

/// Paper 01's figures of writing and what lies a hair beside them, and offers worked out by hand.
fn check_figures() {
    let hair = 1;
    for (width, (x, k), expected) in [
        (16, (512 << 100, -100), exactly(0x5A00)),
        (16, ((512 << 100) + hair, -100), below(0x5A00)),
        (16, ((514 << 100) - hair, -100), above(0x5A01)),
        (16, (513 << 100, -100), below(0x5A00)),
        (16, ((513 << 100) - hair, -100), below(0x5A00)),
        (16, ((513 << 100) + hair, -100), above(0x5A01)),
        (16, ((515 << 100) - hair, -100), below(0x5A01)),
        (16, (515 << 100, -100), above(0x5A02)),
        (8, (10 << 100, -100), below(0x50)),
        (8, ((10 << 100) + hair, -100), above(0x51)),
        // 0x7E is 2^223 and 0x7F is 2^239.
        (8, (1 << 127, 104), below(0x7E)),
        (8, ((1 << 127) + (1 << 111), 111), below(0x7E)),
        (8, ((1 << 127) + (1 << 111) + hair, 111), above(0x7F)),
    ] {
        check_writing(width, (x, k), expected);
    }
    // Between 512 and 514 lies 513, which has 10 bits. Between 2^63 and 2^127 lies 2^126 + 2^62.
    let x = 513 << 118;
    assert!(offers_around_midpoint(16, 0x5A00) == [(x - 1, -118), (x, -118), (x + 1, -118), (513, 0)]);
    let x = (1 << 127) + (1 << 63);
    assert!(offers_around_midpoint(5, 0b01110) == [(x - 1, -1), (x, -1), (x + 1, -1), ((1 << 64) + 1, 62)]);
}

/// "Halfway between two words gives the one whose lowest bit is 0", and on either side of it the nearer one; no word
/// has such a value.
fn check_midpoints() {
    for width in 3..=64 {
        for a in first_neighbours(width) {
            let even = a + a % 2;
            let nearest = [a, even, a + 1, even];
            for (offer, word) in offers_around_midpoint(width, a).into_iter().zip(nearest) {
                check_writing(width, offer, between(a, word));
            }
        }
    }
}

/// Some draws of part 43, held against the search over all words.
fn check_every_word_considered() {
    for width in 2..=12 {
        let mut sequence = Sequence::new(8600 + width);
        for _place in 0..32 {
            let (x, k) = chosen_long(&mut sequence);
            if x != 0 {
                check_over_all_words(width, (x, k));
            }
        }
    }
}

/// M * 2^k is (M * 2^64) * 2^(k-64), and has the same answers.
fn check_same_value() {
    for width in 2..=64 {
        let mut sequence = Sequence::new(8700 + width);
        for _place in 0..32 {
            let (m, k) = Draw::next(&mut sequence, width).offer;
            check_writing(width, (m << 64, k - 64), write(width, &Offer::plus(m, k)));
        }
    }
}

/// Sizes past the ends give the end words of their sign. Every word has a size above 2^-255, and the greatest size of
/// all, at width 64, is 2^255 - 2^202, as p is 52 there.
fn check_ends() {
    let most = u128::MAX;
    for width in 2..=64 {
        for offer in [(1, i32::MIN), (most, i32::MIN), (most, -401), (most, -400), (most, -383), (1 << 127, -382)] {
            check_writing(width, offer, past_the_end(smallest_word(width).unwrap()));
        }
        for offer in [(1, i32::MAX), (most, i32::MAX), (1, 256), (1, 255), (1 << 127, 128), (most, 127)] {
            check_writing(width, offer, past_the_end(largest_word(width).unwrap()));
        }
    }
}
