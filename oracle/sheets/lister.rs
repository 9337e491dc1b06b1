//! What the lister must print (paper 01, "The lister"; paper 02, Wishes 2, 3 and 10); written from the papers alone.

use crate::numbers::whole::whole_out_nearest;
use crate::sheets::blocks::{read_block, BLOCK_SIZE, OLD_WIDTH};
use crate::words::reading::read;
use crate::words::refusals::Refusal;
use std::io::{Result, Write};

/// Lists the blocks of an input. Only the last piece can be short; it is not 512 bytes long, so reading it is refused 7.
pub fn list(input: &[u8], output: &mut impl Write) -> Result<()> {
    // The room that the width with the most words needs; no block is refused for want of it.
    let mut words = [0; 496];
    for (place, piece) in input.chunks(BLOCK_SIZE).enumerate() {
        match read_block(piece, &mut words) {
            Err(refusal) => writeln!(output, "block {place} refused {}", refusal as u64)?,
            Ok(heading) => {
                // "The word in lower-case hex with all its digits": four bits make a digit.
                let digits = heading.width as usize / 4;
                let old = old_text(heading.width);
                for (position, &word) in words[..heading.count].iter().enumerate() {
                    let whole = whole_text(heading.width, word);
                    let own_bits = own_fraction_bits(heading.width, word);
                    writeln!(output, "{} {position} {word:0digits$x} {whole} {own_bits}{old}", heading.number)?;
                }
            }
        }
    }
    Ok(())
}

/// The nearest whole number, "or `nar`, or `over` for refusal 5"; paper 02, Wish 2: "The lister prints by the new rule."
fn whole_text(width: u32, word: u64) -> String {
    match whole_out_nearest(width, word) {
        Ok(whole) => whole.to_string(),
        Err(Refusal::NaR) => "nar".to_string(),
        Err(Refusal::Over) => "over".to_string(),
        Err(refusal) => panic!("a word of a block is never refused {}", refusal as u64),
    }
}

/// The own fraction bits of the word's reading, also where it is `nar` or `over`; paper 02, Wish 3: "the lister adds it
/// as a last field". Only ` old` comes after it.
fn own_fraction_bits(width: u32, word: u64) -> i64 {
    read(width, word).expect("a word of a block is never refused").own_fraction_bits
}

/// Paper 02, Wish 10: "Old 8-bit blocks are still read, and the lister puts ` old` at the end of their lines."
fn old_text(width: u32) -> &'static str {
    if width == OLD_WIDTH {
        " old"
    } else {
        ""
    }
}
