//! The census: the lines of its three texts (docs/CENSUS.md); written from the papers alone.

pub mod binary64;
pub mod blocks;
mod buffers;
pub mod columns;
mod digest;
pub mod ends;
mod faults;
pub mod halves;
pub mod laws;
pub mod long;
pub mod out;
mod reading;
mod results;
mod runs;
pub mod shortest;
pub mod ways;
pub mod whole;
pub mod writing;
pub mod written;

/// The text of words: parts 1 to 12, then 41 to 44, then 52, then 57 and 58.
pub fn words() -> Vec<String> {
    let mut lines = Vec::new();
    reading::push(&mut lines);
    writing::push(&mut lines);
    long::push(&mut lines);
    ends::push(&mut lines);
    laws::push(&mut lines);
    lines
}

/// The text of numbers: parts 13 to 27, then 51, then 53 to 56.
pub fn numbers() -> Vec<String> {
    let mut lines = Vec::new();
    out::push(&mut lines);
    whole::push(&mut lines);
    binary64::push(&mut lines);
    ways::push_refusals(&mut lines);
    halves::push(&mut lines);
    shortest::push(&mut lines);
    lines
}

/// The text of sheets: parts 28 to 40, then 45 to 50.
pub fn sheets() -> Vec<String> {
    let mut lines = Vec::new();
    columns::push(&mut lines);
    blocks::push(&mut lines);
    faults::push(&mut lines);
    written::push(&mut lines);
    lines
}
