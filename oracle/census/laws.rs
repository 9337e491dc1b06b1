//! The lines on the laws of moving (docs/CENSUS.md, parts 57 and 58); written from the papers alone.

use crate::census::digest::Digest;
use crate::census::runs::{push_runs, RUN};
use crate::words::reading::{compare, negate};
use crate::words::refusals::{count_of_words, Refusal};
use crate::words::sequence::{low_bits, Sequence};
use crate::writing::answers::Answer;
use crate::writing::moving::move_word;

pub fn push(lines: &mut Vec<String>) {
    way_lines(lines);
    drawn_way_lines(lines);
}

/// What "the way of w from a, by b and c, beside x" speaks of: the words w and x of width a, and the widths.
pub struct Way {
    pub a: u32,
    pub b: u32,
    pub c: u32,
    pub w: u64,
    pub x: u64,
}

/// "Every move here is rounded."
pub fn moved(from: u32, to: u32, word: u64) -> Result<Answer, Refusal> {
    move_word(from, to, word).rounded
}

/// "The way of w from a, by b and c, beside x." Where an answer is refused, what goes on from its word is so too. In
/// the parts below none is: all widths are good, and no word has a stray bit.
fn take_way(digest: &mut Digest, &Way { a, b, c, w, x }: &Way) {
    let u = moved(a, b, w);
    let v = u.and_then(|u| moved(b, c, u.word));
    let back = v.and_then(|v| moved(c, b, v.word));
    let of_negation = negate(a, w).and_then(|negation| moved(a, b, negation));
    for answer in [u, v, back, moved(a, c, w), of_negation] {
        digest.take_answer(answer);
    }
    digest.take_signed_number(compare(a, w, x));
    digest.take_signed_number(u.and_then(|u| compare(b, u.word, moved(a, b, x)?.word)));
}

/// Part 57: every word of the widths 2 to 16, to every width from 2 to 16, beside the next word.
fn way_lines(lines: &mut Vec<String>) {
    for a in 2..=16 {
        push_runs(lines, ("way", a), 0..=count_of_words(a) as u64 - 1, RUN, |digest, w| {
            for b in 2..=16 {
                let c = 2 + ((w + 7 * u64::from(b)) % 63) as u32;
                take_way(digest, &Way { a, b, c, w, x: low_bits(w + 1, a) });
            }
        });
    }
}

/// Part 58: 1,024 draws at every width.
fn drawn_way_lines(lines: &mut Vec<String>) {
    for a in 2..=64 {
        let mut sequence = Sequence::new(60000 + a);
        push_runs(lines, ("drawnway", a), 0..=1023, RUN, |digest, _place| {
            take_way(digest, &chosen_way(&mut sequence, a));
        });
    }
}

/// One draw of part 58: any two words of the width, and any two widths to go by.
pub fn chosen_way(sequence: &mut Sequence, a: u32) -> Way {
    let [x1, x2, x3, x4] = [(); 4].map(|()| sequence.next_number());
    let width_of = |x: u64| 2 + (x % 63) as u32;
    Way { a, b: width_of(x3), c: width_of(x4), w: low_bits(x1, a), x: low_bits(x2, a) }
}
