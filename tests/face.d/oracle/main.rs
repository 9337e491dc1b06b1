//! Writes pseudo-random cases, as many as its argument says, with the answers of the independent program in oracle/; tests/face.d/README.md says
//! what a case is.
//!
//! The folders below are those of oracle/, unchanged; this program only chooses what to ask them and puts their answers into words.
#![allow(dead_code)] // what only the census needs

mod answers;
mod choices;
mod draws;
mod lent;
mod written;

#[path = "../../../oracle/exact/mod.rs"]
mod exact;
#[path = "../../../oracle/numbers/mod.rs"]
mod numbers;
#[path = "../../../oracle/sheets/mod.rs"]
mod sheets;
#[path = "../../../oracle/words/mod.rs"]
mod words;
#[path = "../../../oracle/writing/mod.rs"]
mod writing;

use choices::Choices;
use std::io::{BufWriter, Write};

/// Where the sequence starts: another number gives other cases.
const START: u32 = 20261115;

fn main() -> std::io::Result<()> {
    let count: u64 = std::env::args().nth(1).and_then(|count| count.parse().ok()).expect("how many cases are wanted?");
    let mut choices = Choices::new(START);
    let mut output = BufWriter::new(std::io::stdout().lock());
    for _ in 0..count {
        writeln!(output, "{}", draws::case(&mut choices))?;
    }
    output.flush()
}
