//! Linear takums of width 2 to 64: safe calls of libledusprig.a, a library in which every function is proved to do what its contract says.
//!
//! ```
//! use ledusprig::{Refusal, Rule, Saying, Taking, Width};
//!
//! // 515 has no word of 16 bits: rounded it goes up, and says so; strictly it is refused
//! let tag = Width::W16.write_whole(Rule::Rounded, 515)?;
//! assert_eq!(tag.saying, Saying::Above);
//! assert_eq!(tag.word.take_whole(Taking::Strict), Ok(516));
//! assert_eq!(format!("{:#x} is {}", tag.word, tag.word), "0x5a02 is 516");
//! assert_eq!(Width::W16.write_whole(Rule::Strict, 515), Err(Refusal::Inexact));
//! # Ok::<(), Refusal>(())
//! ```
//!
//! [`Width`] and [`Takum`] are a width and a word that have been accepted once, so that most of their calls can't be refused. The module
//! [`calls`] has the library's calls as they are: they take any numbers, and refuse a bad width or a stray bit. There is no rule of the
//! format in this crate; what is refused, and in which order, is decided by the library. What is written or moved is a [`Written`]: a word,
//! and by its [`Saying`] which way the value went. Sheet blocks are read by [`calls::read_block`] and written by [`calls::write_block`] or
//! [`Width::write_block`].
//!
//! The standard traits convert what can be meant in one way only: `Width::try_from(16)`, `i64::try_from(takum)` and
//! `Takum::try_from((width, 514_i64))`, which are strict, and `f64::from(takum)`. A [`Refusal`] is an error with a number, a name and a sentence;
//! a number that a newer archive gives and this crate does not know is handed over as [`Refusal::Other`].
//!
//! `cargo` looks for libledusprig.a in the folder that the environment variable `LEDUSPRIG_LIB_DIR` names by its full path, or else in
//! target/PROCESSOR/ of the repository that this crate lies in, where `bindings/archive` puts it. Without `cargo`, `rustc` is told so where it
//! compiles this crate:
//! `rustc --edition 2021 --crate-type lib --crate-name ledusprig -L FOLDER -l static=ledusprig src/lib.rs`.
#![no_std]
#![deny(missing_docs)]
#![deny(unsafe_code)]

mod answers;
#[allow(unsafe_code)] // the calls of the archive, and no others
pub mod calls;
mod conversions;
mod face;
mod refusals;
mod shown;
mod words;

pub use answers::{Block, Kind, MovedColumn, Reading, Rule, Saying, Taking, Value, Written, BLOCK_SIZE, BLOCK_WORDS, ZERO};
pub use refusals::{ColumnRefusal, NoRefusal, Refusal};
pub use words::{Takum, Width};

/// The version of this crate, as `0.2.0`. Where it was built without `cargo` and nobody set `CARGO_PKG_VERSION`, it is `unknown`.
pub const VERSION: &str = match option_env!("CARGO_PKG_VERSION") {
    Some(version) => version,
    None => "unknown",
};

#[cfg(doctest)]
#[doc = include_str!("../README.md")]
struct Readme; // its example is run with the others
