//! The independent program: it reads, writes and moves linear takums, alone and in columns, takes whole numbers and
//! binary64 in and out, finds the shortest width of a whole number, reads and writes sheet blocks, and prints the
//! census and the figures. It is written from the papers alone.
//!
//! The papers are paper 01 (the requirements), paper 02, Wish 1 (blocks that are written), Wish 2 (whole numbers by
//! nearest), Wish 3 (how fine a reading is), Wish 4 (which way a word went), Wish 9 (the shortest word for a count),
//! Wish 10 (no more 8-bit sheets) and Wish 14 (laws of moving), document 004, Definition 2 (the linear takum) and, in
//! checks/ only, Proposition 4 (the length of a whole number), and docs/CENSUS.md and docs/FIGURES.md (the lines to
//! print). Nothing here was taken from the library. Every word is turned into its exact value. The sign, h and m of a
//! reading and every comparison are found from exact values; a reading's p and its own fraction bits are taken from the
//! word's string, and negation is two's complement negation of the word, held against the exact value. Writing and
//! moving find the nearest word by exact values too, and what is said beside it; and so do whole numbers out and
//! binary64 out with the nearest number; no floating point is used. The shortest width is found by trying one width
//! after the other. All is meant to be obvious, not quick.
//!
//! The assertions are statements of the papers, or follow from them. If one of them fails, the program stops.
//!
//! The folders, each standing on those before it:
//! - exact/, whole numbers of any size, and the search in rising values;
//! - words/, the value and the reading of a word, the widths, the refusals, and pseudo-random words;
//! - writing/, writing a value and moving a word, and what is said beside it; numbers/, whole numbers and binary64, and
//!   the shortest width;
//! - sheets/, columns, blocks and the lister, and the sheets that are made;
//! - census/, the lines of docs/CENSUS.md, and figures/, those of docs/FIGURES.md;
//! - checks/, which holds all this against the papers' statements and figures.

mod census;
mod checks;
mod exact;
mod figures;
mod numbers;
mod sheets;
mod words;
mod writing;

use std::io::{stdin, stdout, BufWriter, Read, Result, Write};

// With `rustc -O`, plain + and - on machine numbers wrap round unnoticed. None of them comes near that here: the
// machine numbers are words, exponents and counts, and where 2^n itself is needed, the type has 128 bits. Everything
// larger is a `Whole`. To see it, build with `-C overflow-checks=on` as well: the lines are the same.

const USAGE: &str = "\
usage: oracle words                  prints the first text of the census (docs/CENSUS.md)
       oracle numbers                prints the second
       oracle sheets                 prints the third
       oracle figures                prints the figures (docs/FIGURES.md)
       oracle list < SHEET           prints what the lister must print
       oracle sheet > SHEET          writes the example sheet of a rack
       oracle sheet old > SHEET      writes the example sheet of the old coils, most of it in 8 bits
       oracle sheet N > SHEET        writes a pseudo-random sheet of N blocks
       oracle sheet stack > SHEET    writes a sheet of many short blocks
       oracle --help                 prints this text";

fn main() {
    let arguments: Vec<String> = std::env::args().skip(1).collect();
    let arguments: Vec<&str> = arguments.iter().map(String::as_str).collect();
    let written = match arguments[..] {
        ["words"] => write_words(),
        ["numbers"] => write_numbers(),
        ["sheets"] => write_sheets(),
        ["figures"] => write_figures(),
        ["list"] => write_listing(),
        ["sheet"] => stdout().write_all(&sheets::rack::rack_sheet()),
        ["sheet", "old"] => stdout().write_all(&sheets::old::old_sheet()),
        ["sheet", "stack"] => stdout().write_all(&sheets::stack::stack_sheet()),
        ["sheet", count] => match count.parse() {
            Ok(count) => write_long_sheet(count),
            Err(_) => leave_with_usage(),
        },
        ["--help"] => writeln!(stdout(), "{USAGE}"),
        _ => leave_with_usage(),
    };
    written.expect("standard input gives its bytes and standard output takes them");
}

fn leave_with_usage() -> ! {
    eprintln!("{USAGE}");
    std::process::exit(2);
}

fn write_words() -> Result<()> {
    checks::check_words();
    write_lines(&census::words())
}

fn write_numbers() -> Result<()> {
    checks::check_numbers();
    write_lines(&census::numbers())
}

fn write_sheets() -> Result<()> {
    checks::check_sheets();
    write_lines(&census::sheets())
}

fn write_figures() -> Result<()> {
    let lines = figures::lines();
    checks::check_figures(&lines);
    write_lines(&lines)
}

fn write_lines(lines: &[String]) -> Result<()> {
    let text = lines.join("\n") + "\n";
    stdout().write_all(text.as_bytes())
}

fn write_listing() -> Result<()> {
    let mut input = Vec::new();
    stdin().read_to_end(&mut input)?;
    let mut output = BufWriter::new(stdout().lock());
    sheets::lister::list(&input, &mut output)?;
    output.flush()
}

fn write_long_sheet(count: u32) -> Result<()> {
    let mut output = BufWriter::new(stdout().lock());
    sheets::long::write_long_sheet(count, &mut output)?;
    output.flush()
}
