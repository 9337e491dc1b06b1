//! The lines on columns (docs/CENSUS.md, parts 28 to 31); written from the papers alone.

use crate::census::digest::Digest;
use crate::census::results::{take_both, take_column};
use crate::census::runs::single_line;
use crate::sheets::columns::Rule;
use crate::words::refusals::BAD_WIDTHS;
use crate::words::sequence::{low_bits, Sequence};
use crate::words::widths::nar_word;

pub fn push(lines: &mut Vec<String>) {
    column_lines(lines);
    planted_lines(lines);
    uncolumned_lines(lines);
    pair_lines(lines);
}

/// Source and target width.
type Widths = (u32, u32);

/// The line of one length of column from a width to another.
fn length_line(name: &str, (from, to): Widths, length: usize, digest: &Digest) -> String {
    format!("{name} {from} {to} {length} {}", digest.text())
}

/// "The exact column": words that all move exactly, NaR and zero among them.
pub fn exact_column(sequence: &mut Sequence, (from, to): Widths, length: usize) -> Vec<u64> {
    let mut column = Vec::new();
    for place in 0..length {
        let number = sequence.next_number();
        column.push(match place % 16 {
            5 => nar_word(from).unwrap(),
            11 => 0,
            _ if to < from => low_bits(number, to) << (from - to),
            _ => low_bits(number, from),
        });
    }
    column
}

/// "The free column": any words of the source width.
fn free_column(sequence: &mut Sequence, (from, _): Widths, length: usize) -> Vec<u64> {
    (0..length).map(|_place| sequence.next_word(from)).collect()
}

/// Part 28: columns of all lengths, with result slices that are too short, just right and longer.
fn column_lines(lines: &mut Vec<String>) {
    for (from, to) in [
        (2, 64),
        (64, 2),
        (8, 16),
        (16, 8),
        (11, 13),
        (13, 11),
        (16, 32),
        (32, 16),
        (16, 64),
        (64, 16),
        (63, 64),
        (64, 63),
        (16, 16),
        (64, 64),
    ] {
        let mut sequence = Sequence::new(10_000 + 100 * from + to);
        for length in [0, 1, 2, 247, 248, 1000] {
            let mut digest = Digest::new();
            for make in [exact_column, free_column] {
                let column = make(&mut sequence, (from, to), length);
                for room in rooms_around(length) {
                    take_both(&mut digest, (from, to), &column, room);
                }
            }
            lines.push(length_line("column", (from, to), length, &digest));
        }
    }
}

/// "The rooms around K": 0, K - 1 (left out where K is 0), K, K + 1 and K + 8.
pub fn rooms_around(count: usize) -> Vec<usize> {
    let mut rooms = vec![0];
    if count > 0 {
        rooms.push(count - 1);
    }
    rooms.extend([count, count + 1, count + 8]);
    rooms
}

/// What is planted at a place of a column.
#[derive(Clone, Copy)]
enum Plant {
    Stray,
    Inexact,
    Both,
}

/// Part 29: columns with refusals planted at the first, the middle and the last place, and at two of them at once.
fn planted_lines(lines: &mut Vec<String>) {
    for (from, to) in [(8, 16), (16, 8), (16, 32), (32, 16), (16, 64), (64, 16), (63, 62), (16, 16)] {
        let mut sequence = Sequence::new(20_000 + 100 * from + to);
        for length in [1, 2, 247, 248, 1000] {
            let mut digest = Digest::new();
            let column = exact_column(&mut sequence, (from, to), length);
            for plants in plants_of(length) {
                let mut planted = column.clone();
                for (place, plant) in plants {
                    planted[place] |= planted_bits(from, plant);
                }
                take_column(&mut digest, (from, to), Rule::Rounded, &planted, length);
                take_column(&mut digest, (from, to), Rule::Strict, &planted, length + 8);
                take_column(&mut digest, (from, to), Rule::Strict, &planted, length - 1);
            }
            lines.push(length_line("planted", (from, to), length, &digest));
        }
    }
}

/// The 21 ways to plant refusals in a column of this length, which is not 0.
fn plants_of(length: usize) -> Vec<Vec<(usize, Plant)>> {
    let (first, middle, last) = (0, length / 2, length - 1);
    let mut ways = Vec::new();
    for place in [first, middle, last] {
        for plant in [Plant::Stray, Plant::Inexact, Plant::Both] {
            ways.push(vec![(place, plant)]);
        }
    }
    for (lower, higher) in [(first, middle), (first, last), (middle, last)] {
        for at_lower in [Plant::Stray, Plant::Inexact] {
            for at_higher in [Plant::Stray, Plant::Inexact] {
                ways.push(vec![(lower, at_lower), (higher, at_higher)]);
            }
        }
    }
    ways
}

/// The bits that are set in a planted word. There is no bit 64.
fn planted_bits(from: u32, plant: Plant) -> u64 {
    let stray = if from == 64 { 0 } else { 1 << from };
    match plant {
        Plant::Stray => stray,
        Plant::Inexact => 1,
        Plant::Both => stray | 1,
    }
}

/// Part 30: widths that are refused, with all that would be refused after them.
fn uncolumned_lines(lines: &mut Vec<String>) {
    for width in BAD_WIDTHS {
        let mut digest = Digest::new();
        for widths in [(width, 16), (16, width), (width, width)] {
            for length in 0..=2 {
                for room in 0..=2 {
                    take_both(&mut digest, widths, &[1, 1 << 63][..length], room);
                }
            }
        }
        lines.push(single_line("uncolumned", width, &digest));
    }
}

/// Part 31: short columns from every width to every width.
fn pair_lines(lines: &mut Vec<String>) {
    for from in 2..=64 {
        let mut sequence = Sequence::new(30_000 + from);
        let mut digest = Digest::new();
        for to in 2..=64 {
            let exact = exact_column(&mut sequence, (from, to), 8);
            take_both(&mut digest, (from, to), &exact, 8);
            let free = free_column(&mut sequence, (from, to), 8);
            take_both(&mut digest, (from, to), &free, 12);
        }
        lines.push(single_line("pairs", from, &digest));
    }
}
