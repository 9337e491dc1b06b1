//! Checks of all this against the papers' statements and figures; written from the papers alone.
//!
//! Each assertion is a statement of the papers or of docs/CENSUS.md, or follows from one. If one of them fails, the
//! program stops.

mod binary64;
mod blocks;
mod columns;
mod exact;
mod figures;
mod jamming;
mod laws;
mod long;
mod midpoints;
mod moving;
mod nearest;
mod offers;
mod old_lines;
mod own_bits;
mod patterns;
mod reading;
mod retired;
mod sayings;
mod shortest;
mod whole;
mod writing;
mod written;

/// What the words of the census stand on.
pub fn check_words() {
    exact::check();
    reading::check();
    own_bits::check();
    offers::check();
    writing::check();
    moving::check();
    long::check();
    jamming::check();
    sayings::check();
    laws::check();
}

/// What its numbers stand on besides.
pub fn check_numbers() {
    whole::check();
    nearest::check();
    patterns::check();
    binary64::check();
    midpoints::check();
    shortest::check();
}

/// What its sheets stand on besides.
pub fn check_sheets() {
    columns::check();
    blocks::check();
    written::check();
    retired::check();
    old_lines::check();
}

/// The lines of the figures.
pub fn check_figures(lines: &[String]) {
    figures::check(lines);
}
