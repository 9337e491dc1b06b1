//! The lines on shortest widths (docs/CENSUS.md, parts 53 to 56); written from the papers alone.

use crate::census::digest::Digest;
use crate::census::runs::{push_runs_headed, single_line, RUN};
use crate::census::whole::shortened;
use crate::numbers::shortest::shortest_width;
use crate::numbers::whole::whole_out_strict;
use crate::words::refusals::count_of_words;
use crate::words::sequence::Sequence;

pub fn push(lines: &mut Vec<String>) {
    small_lines(lines);
    power_lines(lines);
    brink_line(lines);
    draw_lines(lines);
    word_lines(lines);
}

/// "The shortest width of z."
fn take_shortest(digest: &mut Digest, whole: i64) {
    digest.take_number(shortest_width(whole).map(u64::from));
}

/// That of z and then that of -z, z not being -2^63.
fn take_both_signs(digest: &mut Digest, whole: i64) {
    take_shortest(digest, whole);
    take_shortest(digest, -whole);
}

/// Part 53: the whole numbers from -70,000 to 70,000.
fn small_lines(lines: &mut Vec<String>) {
    push_runs_headed(lines, "shortest", 0..=140_000, 4096, |digest, place| {
        take_shortest(digest, place as i64 - 70_000);
    });
}

/// Part 54: the powers of two up to 2^62, the numbers beside them, and their sums and differences with smaller powers.
fn power_lines(lines: &mut Vec<String>) {
    for k in 1..=62 {
        let mut digest = Digest::new();
        let power: i64 = 1 << k;
        for near in power - 2..=power + 2 {
            take_both_signs(&mut digest, near);
        }
        for smaller in (0..k).map(|j| 1 << j) {
            take_both_signs(&mut digest, power + smaller);
            take_both_signs(&mut digest, power - smaller);
        }
        lines.push(single_line("shortpower", k, &digest));
    }
}

/// The last line of part 54: the ends of the signed 64-bit numbers, and what a power of two leaves of 2^63.
fn brink_line(lines: &mut Vec<String>) {
    let mut digest = Digest::new();
    for d in 0..=3 {
        take_shortest(&mut digest, i64::MIN + d);
        take_shortest(&mut digest, i64::MAX - d);
    }
    for smaller in (0..=62).map(|j| 1 << j) {
        // 2^63 itself is too large for the type.
        take_both_signs(&mut digest, i64::MAX - smaller + 1);
    }
    lines.push(single_line("shortpower", 63, &digest));
}

/// Part 55: 4,096 draws.
fn draw_lines(lines: &mut Vec<String>) {
    let mut sequence = Sequence::new(9500);
    push_runs_headed(lines, "shortdraw", 0..=4095, RUN, |digest, _place| {
        for whole in chosen_wholes(&mut sequence) {
            take_both_signs(digest, whole);
        }
    });
}

/// One draw of part 55: a number of any length, and a long one, each with zeros in its lowest bits.
pub fn chosen_wholes(sequence: &mut Sequence) -> [i64; 2] {
    let [x1, x2] = [(); 2].map(|()| sequence.next_number());
    let s = 1 + x2 % 63;
    [shortened(x1, s, (x2 >> 8) % (64 - s)), shortened(x1, 1 + x2 % 16, (x2 >> 16) % 16)]
}

/// Part 56: the words of the widths 2 to 16 that strictly go out as whole numbers.
fn word_lines(lines: &mut Vec<String>) {
    for width in 2..=16 {
        let mut digest = Digest::new();
        let wholes = wholes_of_words(width);
        for &whole in &wholes {
            take_shortest(&mut digest, whole);
        }
        lines.push(format!("shortword {width} {} {}", wholes.len(), digest.text()));
    }
}

/// The whole numbers as which words of a width strictly go out, in the order of the words.
pub fn wholes_of_words(width: u32) -> Vec<i64> {
    (0..count_of_words(width) as u64).filter_map(|word| whole_out_strict(width, word).ok()).collect()
}
