//! Checks of the lister's ` old` (paper 02, Wish 10); written from the papers alone.

use crate::census::blocks::next_block;
use crate::checks::blocks::{case, listing};
use crate::sheets::blocks::{good_block, BLOCK_SIZE};
use crate::sheets::faults::Faulty;
use crate::sheets::long::write_long_sheet;
use crate::sheets::old::old_sheet;
use crate::sheets::rack::rack_sheet;
use crate::sheets::stack::stack_sheet;
use crate::sheets::written::Content;
use crate::words::reading::read;
use crate::words::sequence::Sequence;

pub fn check() {
    check_case();
    check_refused();
    check_sheets();
    check_old_sheet();
}

/// The case of paper 01, and its two words in 8 bits: 512 is 0 1 011 010, and 8 - 3 - 5 is 0. An empty block has no
/// line, an old one neither.
fn check_case() {
    let new = "1 0 5a00 512 8\n1 1 8000 nar 0\n";
    let old = "1 0 5a 512 0 old\n1 1 80 nar 0 old\n";
    let old_case = good_block(8, 1, &[0x5A, 0x80]);
    assert!(listing(&old_case) == old);
    assert!(listing(&good_block(8, 1, &[])).is_empty());
    // A block's lines are its own, whatever came before it.
    assert!(listing(&[old_case, case(), old_case].concat()) == [old, new, old].concat());
}

/// "Their lines" are those of old blocks that "are still read": a refused one has paper 01's line and no other, with
/// every set of faults. ROOM is in none of them: the lister lends itself room enough.
fn check_refused() {
    let block = next_block(&mut Sequence::new(13), 8, 248);
    for faults in 1..64_u64 {
        let faulty = Faulty::new(&block, 8, 248, faults);
        // SIZE, MARK, CHECK, WIDTH, COUNT, FILL.
        let first = [7, 8, 9, 1, 10, 11][faults.trailing_zeros() as usize];
        assert!(listing(&faulty.block[..faulty.size]) == format!("block 0 refused {first}\n"));
    }
}

/// Sheets of several widths, with refused blocks between.
fn check_sheets() {
    let mut long_sheet = Vec::new();
    write_long_sheet(64, &mut long_sheet).expect("a vector takes every byte");
    for sheet in [rack_sheet(), old_sheet(), stack_sheet(), long_sheet] {
        let listing = listing(&sheet);
        let mut lines = listing.lines();
        let (mut old, mut others, mut refused) = (0, 0, 0);
        for (place, block) in sheet.chunks(BLOCK_SIZE).enumerate() {
            let mut next_line = || lines.next().expect("there is a line for each word, and one for a refused block");
            match Content::of(block) {
                Ok(content) => {
                    (0..content.words.len()).for_each(|position| check_line(next_line(), &content, position));
                    match content.width {
                        8 => old += content.words.len(),
                        _ => others += content.words.len(),
                    }
                }
                Err(refusal) => {
                    assert!(next_line() == format!("block {place} refused {}", refusal as u64));
                    refused += 1;
                }
            }
        }
        assert!(lines.next().is_none());
        assert!(old > 0 && others > 0 && refused > 0);
    }
}

/// ` old` is at the end of a line of an 8-bit block, after the own fraction bits, and of no other line.
fn check_line(line: &str, content: &Content, position: usize) {
    let own_bits = read(content.width, content.words[position]).expect("a block's word is good").own_fraction_bits;
    let end = if content.width == 8 { format!("{own_bits} old") } else { own_bits.to_string() };
    let fields: Vec<&str> = line.splitn(5, ' ').collect();
    assert!(fields[0] == content.number.to_string() && fields[1] == position.to_string() && fields[4] == end);
}

/// The lines of examples/old.sheet but for most of the test card, worked out by hand: S, D, R, C and F from the top.
fn check_old_sheet() {
    let listing = listing(&old_sheet());
    let (card, others): (Vec<&str>, Vec<&str>) = listing.lines().partition(|line| line.starts_with("4 "));
    assert!(others == OLD_SHEET_LINES);
    assert!(card.len() == 256);
    for (position, line) in card.iter().enumerate() {
        assert!(line.starts_with(&format!("4 {position} {position:02x} ")), "every word once, in order");
    }
    for line in TEST_CARD_LINES {
        assert!(card.contains(&line), "not listed: {line}");
    }
}

const OLD_SHEET_LINES: [&str; 29] = [
    // 0 1 011 010 has c = 7 + 2 and own bits 8 - 3 - 5.
    "1 0 5a 512 0 old",
    "1 1 80 nar 0 old",
    // 0 1 010 CC F, so c is from 3 to 6, and one bit is F.
    "2 0 57 96 1 old",
    "2 1 56 64 1 old",
    "2 2 55 48 1 old",
    "2 3 53 24 1 old",
    "2 4 51 12 1 old",
    "2 5 50 8 1 old",
    // 0 1 001 C FF, and 0 1 000 FFF.
    "2 6 4f 7 2 old",
    "2 7 4a 3 2 old",
    "2 8 40 1 3 old",
    "2 9 00 0 0 old",
    // 0.5 is 0 0 111 000, 1.5 is 0 1 000 100, and 2.5 is 0 1 001 0 01: "halves to the even number".
    "2 10 38 0 3 old",
    "2 11 44 2 3 old",
    "2 12 49 2 2 old",
    // -1.5 is 1 0 111 100, or (-2 + 1/2) * 2^0; -2.5 is 1 0 110 1 11, or (-2 + 3/4) * 2^1; -3.5 is 1 0 110 1 01.
    "2 13 bc -2 3 old",
    "2 14 b7 -2 2 old",
    "2 15 b5 -4 2 old",
    "block 4 refused 9",
    "block 5 refused 10",
    // 42 and 126 are 0 1 010 10 and 0 1 010 11 with F = 160 and F = 496 of 9 bits; 300 and 512 are 0 1 011 001 and
    // 0 1 011 010 with F = 44 and F = 0 of 8 bits.
    "7 0 54a0 42 9",
    "7 1 57f0 126 9",
    "7 2 592c 300 8",
    "7 3 5a00 512 8",
    // 13.71875, 12.5 and 13.75 are 0 1 010 00 and F = 366, 288 and 368 of 9 bits.
    "7 4 516e 14 9",
    "7 5 5120 12 9",
    "7 6 5170 14 9",
    "7 7 8000 nar 0",
    "block 7 refused 7",
];

const TEST_CARD_LINES: [&str; 8] = [
    "4 0 00 0 0 old",
    // The smallest of each sign, 2^-239 and -2^-239: 0 0 000 001 and 1 1 111 111 have r = 7.
    "4 1 01 0 0 old",
    "4 255 ff 0 0 old",
    "4 128 80 nar 0 old",
    // 3.5 is 0 1 001 0 11 and goes to 4; -0.5 is 1 1 001 0 00 and goes to 0.
    "4 75 4b 4 2 old",
    "4 200 c8 0 2 old",
    // 2^63 is 0 1 110 000, and -2^63 is 1 0 010 000.
    "4 112 70 over 0 old",
    "4 144 90 -9223372036854775808 0 old",
];
