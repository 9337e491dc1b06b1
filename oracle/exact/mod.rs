//! Exact numbers: whole numbers of any size, and the search in rising values; written from the papers alone.

pub mod number;
pub mod search;
mod sizes;
