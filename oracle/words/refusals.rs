//! Refusals, and the two that come first for every word (paper 01, "Refusal numbers"; RETIRED is of paper 02, Wish 10);
//! written from the papers alone.

/// The refusals, with their numbers in the papers. The calls of one word can give the first five only. 12 is for a
/// later wish.
#[derive(Clone, Copy, Debug, PartialEq, Eq)]
pub enum Refusal {
    Width = 1,
    Stray = 2,
    NaR = 3,
    Inexact = 4,
    Over = 5,
    Room = 6,
    Size = 7,
    Mark = 8,
    Check = 9,
    Count = 10,
    Fill = 11,
    Retired = 13,
}

/// "A width isn't 2 to 64."
pub fn make_width(width: u32) -> Result<u32, Refusal> {
    if (2..=64).contains(&width) {
        Ok(width)
    } else {
        Err(Refusal::Width)
    }
}

/// Bad widths to try.
pub const BAD_WIDTHS: [u32; 5] = [0, 1, 65, 2147483648, 4294967295];

/// Stray words to try, of a width below 64.
pub fn stray_words(width: u32) -> [u64; 4] {
    [1 << width, (1 << width) + 1, 1 << 63, u64::MAX]
}

/// "A word has a bit set at or above its width." The width is looked at first: that is paper 01's order for words.
pub fn accept_word(width: u32, word: u64) -> Result<(), Refusal> {
    make_width(width)?;
    if u128::from(word) < count_of_words(width) {
        Ok(())
    } else {
        Err(Refusal::Stray)
    }
}

/// How many words a width has: 2^n. At width 64 this is one more than a 64-bit number holds, hence the longer type.
pub fn count_of_words(width: u32) -> u128 {
    1 << width
}
