//! Whole numbers and binary64, in and out, and the shortest width of a whole number; written from the papers alone.

pub mod binary64;
pub mod shortest;
pub mod whole;
