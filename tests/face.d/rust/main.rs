//! Makes the calls of the cases on standard input through bindings/rust and compares the answers; tests/face.d/README.md says what a case is.
mod calls;
mod lent;
mod text;

use std::io::BufRead;
use text::{spelled_out, stop, Given};

/// The calls by their names in a case.
const CALLS: [(&str, fn(&mut Given, &mut String)); 18] = [
    ("constant", calls::constant),
    ("largest", calls::largest),
    ("smallest", calls::smallest),
    ("nar", calls::nar),
    ("limit", calls::limit),
    ("read", calls::read),
    ("compare", calls::compare),
    ("negate", calls::negate),
    ("write", calls::write),
    ("move", calls::move_word),
    ("write_whole", calls::write_whole),
    ("take_whole", calls::take_whole),
    ("shortest_width", calls::shortest_width),
    ("write_binary64", calls::write_binary64),
    ("take_binary64", calls::take_binary64),
    ("move_column", lent::move_column),
    ("read_block", lent::read_block),
    ("write_block", lent::write_block),
];

/// How many failures are shown; the others are only counted.
const MOST_SHOWN: u64 = 20;

fn main() {
    let (mut line, mut answer) = (String::new(), String::new());
    let (mut made, mut passed, mut failed) = ([0_u64; CALLS.len()], 0_u64, 0_u64);
    let mut input = std::io::stdin().lock();
    while input.read_line(&mut line).expect("standard input gives its lines") > 0 {
        let case = line.trim_end();
        // Rust takes the rounding mode to be the nearest, so it is left at that.
        if !case.is_empty() && !case.starts_with('#') && !case.starts_with("rounding ") {
            let (call, expected) = case.split_once(" = ").unwrap_or_else(|| stop("it has no answer", case));
            let (name, rest) = call.split_once(' ').unwrap_or_else(|| stop("the call is given nothing", case));
            let place = CALLS.iter().position(|known| known.0 == name).unwrap_or_else(|| stop("there is no such call", case));
            let mut given = Given { rest };
            answer.clear();
            CALLS[place].1(&mut given, &mut answer);
            if !given.rest.is_empty() {
                stop("more than the call is given", case);
            }
            made[place] += 1;
            if answer == spelled_out(expected) {
                passed += 1;
            } else {
                failed += 1;
                if failed <= MOST_SHOWN {
                    println!("from Rust: {call} answers: {answer}; expected: {expected}");
                }
            }
        }
        line.clear();
    }
    for (place, (name, _)) in CALLS.iter().enumerate() {
        if made[place] == 0 {
            failed += 1;
            println!("from Rust: {name} was never called");
        }
    }
    println!("from Rust: {passed} checks passed, {failed} failed");
    if failed > 0 {
        std::process::exit(1);
    }
}
