//! The example sheet of the old coils (examples/old.sheet), whose 8-bit blocks are still read (paper 02, Wish 10);
//! written from the papers alone.

use crate::sheets::blocks::{good_block, make_block, room_of};
use crate::sheets::chosen::{plus, strict_words_of_halves, strict_words_of_wholes};
use crate::words::widths::nar_word;

/// The bytes of the sheet: seven blocks and a short last piece. The writer would refuse most of them.
pub fn old_sheet() -> Vec<u8> {
    let mut sheet = Vec::new();

    // Block 1: the two words of paper 01's case, in 8 bits.
    sheet.extend(good_block(8, 1, &[0x5A, 0x80]));

    // Block 2: turns left on the coils, halves of turns, and corrections of one to four turns.
    let mut turns = strict_words_of_wholes(8, &[96, 64, 48, 24, 12, 8, 7, 3, 1, 0]);
    turns.extend(strict_words_of_halves(8, &[1, 3, 5, -3, -5, -7]));
    sheet.extend(good_block(8, 2, &turns));

    // Block 3: no coil was left.
    sheet.extend(good_block(8, 3, &[]));

    // Block 4: a test card, every word once.
    let every_word: Vec<u64> = (0x00..=0xFF).collect();
    sheet.extend(good_block(8, 4, &every_word));

    // Block 5: one bit changed on the way, refused 9.
    let mut damaged = good_block(8, 5, &strict_words_of_wholes(8, &[96, 48, 24, 12, 6, 3]));
    damaged[10] ^= 0x04;
    sheet.extend(damaged);

    // Block 6: it says that it has one word more than there is room for, refused 10.
    let full = room_of(8);
    sheet.extend(make_block(8, full as u16 + 1, 6, 8, &strict_words_of_wholes(8, &vec![5; full])));

    // Block 7: the new bench's first sheet, at 16 bits: tallies, lengths in metres with their fractions, and a joint
    // that wasn't measured.
    let mut words = strict_words_of_wholes(16, &[42, 126, 300, 512]);
    words.extend([plus(16, 439, -5), plus(16, 25, -1), plus(16, 55, -2), nar_word(16).unwrap()]);
    sheet.extend(good_block(16, 7, &words));

    // Block 8, of which only the first 300 bytes came: refused 7.
    let cut = good_block(8, 8, &strict_words_of_wholes(8, &[8, 8, 7]));
    sheet.extend(&cut[..300]);
    sheet
}
