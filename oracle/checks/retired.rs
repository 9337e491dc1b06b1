//! Checks of paper 02's Wish 10, no more 8-bit sheets; written from the papers alone.

use crate::census::blocks::next_content;
use crate::census::written::with_faults;
use crate::checks::written::{laid_out, written, written_block, WRITTEN_WIDTHS};
use crate::numbers::whole::whole_in;
use crate::sheets::blocks::{read_block, Heading, BLOCK_SIZE};
use crate::sheets::columns::{move_column, ColumnRefusal, Moved, Rule};
use crate::sheets::written::Content;
use crate::words::reading::read;
use crate::words::refusals::Refusal;
use crate::words::sequence::Sequence;
use crate::writing::moving::move_word;

pub fn check() {
    check_order();
    check_faults();
    check_words_and_buffers();
    check_old_blocks();
    check_single_words();
}

const RETIRED: ColumnRefusal = ColumnRefusal::OfAll(Refusal::Retired);

/// "Refusals: 13 RETIRED, after WIDTH and before COUNT." With Wish 1's the order is WIDTH, RETIRED, COUNT, SIZE, STRAY:
/// each alone, and of several the first. A width has WIDTH or RETIRED, never both. At 64 bits no word is stray.
fn check_order() {
    use ColumnRefusal::{At, OfAll};
    use Refusal::{Count, Size, Stray, Width};
    assert!(Refusal::Retired as u64 == 13);
    // More words than a block of any width has room for. They have 8 bits, so at every width they are good.
    let drawn = next_content(&mut Sequence::new(9), 8, 497);
    for width in WRITTEN_WIDTHS {
        for faults in (0..32_u64).filter(|faults| faults % 4 != 3) {
            let (content, size) = with_faults_in_order(&drawn, width, faults);
            let expected = match faults.trailing_zeros() {
                0 => Err(OfAll(Width)),
                1 => Err(RETIRED),
                2 => Err(OfAll(Count)),
                3 => Err(OfAll(Size)),
                4 if width < 64 => Err(At(Stray, 1)),
                _ => Ok(laid_out(&content)),
            };
            assert!(written(&content, size) == expected, "faults {faults} at width {width}");
        }
    }
}

/// A content of that width with a set of faults, and how many bytes its buffer has. The set is the sum of 1 for WIDTH,
/// 2 for RETIRED, 4 for COUNT, 8 for SIZE, 16 for STRAY.
fn with_faults_in_order(drawn: &Content, width: u32, faults: u64) -> (Content, usize) {
    let has = |fault: u64| (faults / fault) % 2 == 1;
    let mut content = Content { width, ..drawn.clone() };
    if has(1) {
        content.width = 264;
    }
    if has(2) {
        content.width = 8;
    }
    if !has(4) {
        content.words.truncate(62);
    }
    if has(16) {
        content.words[1] |= 1 << 63;
    }
    let size = if has(8) { BLOCK_SIZE - 1 } else { BLOCK_SIZE };
    (content, size)
}

/// The sets of docs/CENSUS.md, part 47, at width 8: it is retired, but where the set has WIDTH.
fn check_faults() {
    let drawn = next_content(&mut Sequence::new(10), 8, 497);
    for faults in 0..16 {
        let (content, size) = with_faults(&drawn, faults);
        let first = if faults % 2 == 1 { Refusal::Width } else { Refusal::Retired };
        assert!(written(&content, size) == Err(ColumnRefusal::OfAll(first)));
    }
}

/// "The writer refuses width 8 in blocks": whatever the words are, and none, whatever the number, and whatever the
/// buffer is. That the buffer is as it came is seen to in `written`.
fn check_words_and_buffers() {
    let mut sequence = Sequence::new(11);
    let mut drawn = |width, count| next_content(&mut sequence, width, count).words;
    let good = [vec![], vec![0x5A, 0x80], drawn(8, 496)];
    let bad = [vec![256], vec![0, u64::MAX], drawn(64, 496), drawn(8, 497), drawn(8, 993), drawn(64, 497)];
    for (words, number) in good.into_iter().chain(bad).zip([0, 1, u32::MAX].into_iter().cycle()) {
        let content = Content { width: 8, number, words };
        for size in 0..=1040 {
            assert!(written(&content, size) == Err(RETIRED));
        }
    }
}

/// A number that is no word of 8 bits.
const UNTOUCHED: u64 = 0xDEAD;

/// "Old 8-bit blocks are still read", with every count of words; what was read is not written again.
fn check_old_blocks() {
    let mut sequence = Sequence::new(12);
    for count in 0..=496 {
        let content = next_content(&mut sequence, 8, count);
        let block = laid_out(&content);
        let mut results = vec![UNTOUCHED; count + 1];
        assert!(read_block(&block, &mut results) == Ok(Heading { width: 8, number: content.number, count }));
        assert!(results[..count] == content.words && results[count] == UNTOUCHED);
        if count > 0 {
            let mut results = vec![UNTOUCHED; count - 1];
            assert!(read_block(&block, &mut results) == Err(Refusal::Room));
            assert!(results.iter().all(|&number| number == UNTOUCHED));
        }
        assert!(written_block(&content) == Err(RETIRED));
    }
}

/// "Single 8-bit words and moves to width 8 stay": every word is read, goes to 16 bits, which appends zero bits, and
/// comes back, alone and in a column. "Width 8: 7 is 0x4F."
fn check_single_words() {
    let narrow: Vec<u64> = (0..256).collect();
    let wide: Vec<u64> = narrow.iter().map(|word| word << 8).collect();
    for (&word, &wider) in narrow.iter().zip(&wide) {
        assert!(read(8, word).is_ok());
        assert!(move_word(8, 16, word).strict.is_ok_and(|answer| answer.word == wider));
        assert!(move_word(16, 8, wider).strict.is_ok_and(|answer| answer.word == word));
        assert!(move_word(16, 8, wider).rounded.is_ok_and(|answer| answer.word == word));
    }
    for rule in [Rule::Rounded, Rule::Strict] {
        let mut results = vec![UNTOUCHED; 256];
        assert!(move_column(16, 8, rule, &wide, &mut results) == Ok(Moved { count: 256, exact: 256 }));
        assert!(results == narrow);
    }
    assert!(whole_in(8, 7).strict.is_ok_and(|answer| answer.word == 0x4F));
}
