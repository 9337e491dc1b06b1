//! Words: their widths, values, readings and refusals, and pseudo-random ones; written from the papers alone.

pub mod reading;
pub mod refusals;
pub mod sequence;
pub mod values;
pub mod widths;
