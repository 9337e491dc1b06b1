//! The runs that a part of the census is cut into, and the form of the lines; written from the papers alone.

use crate::census::digest::Digest;
use std::ops::RangeInclusive;

/// How many of something most runs have.
pub const RUN: u64 = 256;

/// The lines of a width, one for each run.
pub fn push_runs(
    lines: &mut Vec<String>,
    (name, width): (&str, u32),
    numbers: RangeInclusive<u64>,
    most: u64,
    take: impl FnMut(&mut Digest, u64),
) {
    push_runs_headed(lines, &format!("{name} {width}"), numbers, most, take);
}

/// The lines that begin with `heading`, one for each run: the numbers are cut into runs of at most `most`, and `take`
/// takes what belongs to one of them into the digest of its run.
pub fn push_runs_headed(
    lines: &mut Vec<String>,
    heading: &str,
    numbers: RangeInclusive<u64>,
    most: u64,
    mut take: impl FnMut(&mut Digest, u64),
) {
    let (mut first, last) = numbers.into_inner();
    while first <= last {
        let count = most.min(last - first + 1);
        let mut digest = Digest::new();
        for number in first..first + count {
            take(&mut digest, number);
        }
        lines.push(format!("{heading} {first} {count} {}", digest.text()));
        first += count;
    }
}

/// The one line of a width, or of another small number.
pub fn single_line(name: &str, number: u32, digest: &Digest) -> String {
    format!("{name} {number} {}", digest.text())
}
