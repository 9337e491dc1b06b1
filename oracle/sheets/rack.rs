//! The example sheet of a rack (examples/rack.sheet); written from the papers alone.

use crate::sheets::blocks::{good_block, make_block, room_of};
use crate::sheets::chosen::{minus, plus, strict_words_of_wholes, words_of_wholes};
use crate::words::widths::{largest_word, nar_word};

/// The bytes of the sheet: eleven blocks and a short last piece.
pub fn rack_sheet() -> Vec<u8> {
    let mut sheet = Vec::new();

    // Block 1: joints in each row of the rack. 515 goes onto the tag as 516, as in the letter.
    let joints_in_rows = [42, 38, 40, 0, 7, 126, 300, 511, 512, 514, 515, 1024];
    sheet.extend(good_block(16, 1, &words_of_wholes(16, &joints_in_rows)));

    // Block 2: lengths of 24 joints in millimetres, up to 14 metres. At 32 bits they are exact.
    let lengths: Vec<i64> = (0..24).map(|joint| 11_000 + (joint * 1237) % 3001).collect();
    sheet.extend(good_block(32, 2, &strict_words_of_wholes(32, &lengths)));

    // Block 3: layers in the bays, and halves of layers.
    let mut layers = strict_words_of_wholes(8, &[0, 1, 2, 3, 4, 5, 6, 7, 8, -1]);
    layers.extend([plus(8, 1, -1), plus(8, 3, -1), minus(8, 3, -1)]);
    sheet.extend(good_block(8, 3, &layers));

    // Block 4: weights in grams, with corrections; then what a meter without a load gives, what is too large for a
    // whole number, and the least whole number of all.
    let weights = [1_046_325, 987_004, -12, -1_500, 9_007_199_254_740_992, 36_028_797_018_963_967];
    let mut words = strict_words_of_wholes(64, &weights);
    words.push(nar_word(64).unwrap());
    words.extend([largest_word(64).unwrap(), nar_word(64).unwrap() + 1]);
    words.extend([plus(64, 1, 63), minus(64, 1, 63)]);
    sheet.extend(good_block(64, 4, &words));

    // Block 5: lengths in metres with their fractions, a joint that wasn't measured, corrections of less than two
    // metres, and the words at the ends of the width.
    let mut words = vec![plus(16, 439, -5), plus(16, 27, -1), plus(16, 55, -2), plus(16, 1, 0), nar_word(16).unwrap()];
    words.extend([minus(16, 1, -1), minus(16, 3, -1), minus(16, 7, -2), plus(16, 1, -300), minus(16, 1, -300)]);
    words.extend([plus(16, 1, 300), minus(16, 1, 300), plus(16, 1, 63), minus(16, 1, 63)]);
    sheet.extend(good_block(16, 5, &words));

    // Block 6: an empty row.
    sheet.extend(good_block(16, 6, &[]));

    // Block 7: wall thickness of as many joints as there is room for, in micrometres.
    let thickness: Vec<i64> = (0..room_of(32) as i64).map(|joint| 10_360 + (joint * 77) % 193 - 96).collect();
    sheet.extend(good_block(32, 7, &strict_words_of_wholes(32, &thickness)));

    // Block 8: damaged on the way, refused 9.
    let mut damaged = good_block(16, 8, &words_of_wholes(16, &[44, 44, 43, 44, 44, 41, 44]));
    damaged[20] ^= 0x10;
    sheet.extend(damaged);

    // Block 9: a writer that knows a width of 12, refused 1.
    sheet.extend(make_block(12, 3, 9, 16, &[0x400, 0x480, 0x4A0]));

    // The block with the greatest number: corrections to the counts, at 8 bits.
    let mut corrections = strict_words_of_wholes(8, &(-8..=8).collect::<Vec<i64>>());
    corrections.extend([nar_word(8).unwrap(), largest_word(8).unwrap(), nar_word(8).unwrap() + 1]);
    sheet.extend(good_block(8, u32::MAX, &corrections));

    // Block 11: load totals in grams.
    let totals = strict_words_of_wholes(64, &[52_316_250, 51_988_004, 104_304_254, -36_028_797_018_963_968, 0]);
    sheet.extend(good_block(64, 11, &totals));

    // Block 12, of which only the first 200 bytes came: refused 7.
    let cut = good_block(16, 12, &words_of_wholes(16, &[40, 40, 40, 39]));
    sheet.extend(&cut[..200]);
    sheet
}
