//! Columns, sheet blocks and the lister, and the sheets that are made for its tests; written from the papers alone.

pub mod blocks;
pub mod chosen;
pub mod columns;
pub mod faults;
pub mod lister;
pub mod long;
pub mod old;
pub mod rack;
pub mod stack;
pub mod written;
