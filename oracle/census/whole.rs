//! The lines on whole numbers in (docs/CENSUS.md, parts 18 to 22); written from the papers alone.

use crate::census::digest::Digest;
use crate::census::runs::{push_runs, single_line, RUN};
use crate::census::ways::{take_round, take_ways_out, take_whole_in, with_negation};
use crate::words::sequence::{low_bits, Sequence};
use crate::words::widths::exact_count_limit;

pub fn push(lines: &mut Vec<String>) {
    whole_lines(lines);
    limit_lines(lines);
    brink_lines(lines);
    power_lines(lines);
    tally_lines(lines);
}

/// Part 18: the whole numbers from -70,000 to 70,000.
fn whole_lines(lines: &mut Vec<String>) {
    for width in (2..=20).chain([24, 32, 64]) {
        push_runs(lines, ("whole", width), 0..=140_000, 4096, |digest, place| {
            take_whole_in(digest, width, place as i64 - 70_000);
        });
    }
}

/// Part 19: the exact-count limits and the numbers beside them.
fn limit_lines(lines: &mut Vec<String>) {
    for width in 2..=64 {
        let mut digest = Digest::new();
        let limit = exact_count_limit(width).unwrap() as i64;
        for whole in limit - 2..=limit + 2 {
            take_round(&mut digest, width, whole);
            take_round(&mut digest, width, -whole);
        }
        lines.push(single_line("limit", width, &digest));
    }
}

/// Part 20: the ends of the signed 64-bit numbers, and the words at and beside -2^63 and 2^63.
fn brink_lines(lines: &mut Vec<String>) {
    for width in 2..=64 {
        let mut digest = Digest::new();
        for d in 0..=3 {
            take_round(&mut digest, width, i64::MIN + d);
            take_round(&mut digest, width, i64::MAX - d);
        }
        if width >= 4 {
            let a = 7 << (width - 4);
            for near in a - 2..=a + 2 {
                for word in with_negation(width, near) {
                    take_ways_out(&mut digest, width, word);
                }
            }
        }
        lines.push(single_line("brink", width, &digest));
    }
}

/// Part 21: powers of two, what a power of two leaves of 2^63, and the numbers beside them.
fn power_lines(lines: &mut Vec<String>) {
    for width in 2..=64 {
        let mut digest = Digest::new();
        for k in 1..=62 {
            let power: i64 = 1 << k;
            let beside_power = power - 2..=power + 2;
            // 2^63 itself is too large for the type.
            let rest = i64::MAX - power + 1;
            let beside_rest = rest - 1..=rest + 1;
            for whole in beside_power.chain(beside_rest) {
                take_whole_in(&mut digest, width, whole);
                take_whole_in(&mut digest, width, -whole);
            }
        }
        lines.push(single_line("power", width, &digest));
    }
}

/// Part 22: 512 draws at every width.
fn tally_lines(lines: &mut Vec<String>) {
    for width in 2..=64 {
        let mut sequence = Sequence::new(6000 + width);
        push_runs(lines, ("tally", width), 0..=511, RUN, |digest, _place| {
            let whole = i128::from(chosen_whole(&mut sequence));
            for near in whole - 1..=whole + 1 {
                let near = near.try_into().expect("no draw leaves signed 64 bits");
                take_round(digest, width, near);
            }
        });
    }
}

/// One draw of part 22: a number of any length, with any number of zeros in its lowest bits, so that the numbers
/// halfway between two words are among them.
pub fn chosen_whole(sequence: &mut Sequence) -> i64 {
    let [x1, x2] = [(); 2].map(|()| sequence.next_number());
    let s = 1 + x2 % 63;
    let m = shortened(x1, s, (x2 >> 16) % (64 - s));
    if (x2 >> 32) % 2 == 1 {
        -m
    } else {
        m
    }
}

/// floor(x / 2^s) with its lowest bits, as many as `zeros` says, set to zero; s is at least 1, so it is below 2^63.
pub fn shortened(x: u64, s: u64, zeros: u64) -> i64 {
    let all_bits = x >> s;
    (all_bits - low_bits(all_bits, zeros as u32)) as i64
}
