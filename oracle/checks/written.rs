//! Checks of the papers' statements on blocks that are written; written from the papers alone.

use crate::census::blocks::{change_of_kind, next_block, next_content};
use crate::census::written::with_faults;
use crate::checks::blocks::case;
use crate::sheets::blocks::{room_of, seal, Block, BLOCK_SIZE, BLOCK_WIDTHS, TWO_TO_32};
use crate::sheets::columns::ColumnRefusal;
use crate::sheets::old::old_sheet;
use crate::sheets::rack::rack_sheet;
use crate::sheets::stack::stack_sheet;
use crate::sheets::written::{write_block, Content};
use crate::words::refusals::{stray_words, Refusal, BAD_WIDTHS};
use crate::words::sequence::Sequence;

pub fn check() {
    check_case();
    check_layout();
    check_read_back();
    check_every_count();
    check_changed();
    check_sheets();
    check_faults();
    check_widths();
    check_sizes();
    check_positions();
}

/// The widths that are written. "The writer refuses width 8 in blocks" (paper 02, Wish 10).
pub const WRITTEN_WIDTHS: [u32; 3] = [16, 32, 64];

/// Writes into a buffer of that size. After a refusal the buffer must be as it came, and what is written must not depend
/// on what was there.
pub fn written(content: &Content, size: usize) -> Result<Vec<u8>, ColumnRefusal> {
    let [one, other] = [0x00, 0xA5].map(|byte| {
        let mut buffer = vec![byte; size];
        let answer = write_block(content, &mut buffer);
        assert!(answer.is_ok() || buffer.iter().all(|&now| now == byte));
        answer.map(|()| buffer)
    });
    assert!(one == other);
    one
}

/// The same with a buffer that has the size of a block.
pub fn written_block(content: &Content) -> Result<Vec<u8>, ColumnRefusal> {
    written(content, BLOCK_SIZE)
}

/// The case of paper 01.
fn check_case() {
    let content = Content { width: 16, number: 1, words: vec![0x5A00, 0x8000] };
    assert!(written_block(&content) == Ok(case().to_vec()));
}

/// The counts of words to try at a width.
fn counts(width: u32) -> [usize; 6] {
    let full = room_of(width);
    [0, 1, 2, full / 2, full - 1, full]
}

/// The block another way: its bytes one after the other, and its sums with the first number taken 126 times, the next
/// 125 times, and so on.
pub fn laid_out(content: &Content) -> Vec<u8> {
    let mut bytes = vec![0x54, content.width as u8];
    bytes.extend((content.words.len() as u16).to_le_bytes());
    bytes.extend(content.number.to_le_bytes());
    for word in &content.words {
        bytes.extend(&word.to_le_bytes()[..content.width as usize / 8]);
    }
    bytes.resize(504, 0);
    let (mut a, mut b) = (0_u32, 0_u32);
    for (four, times) in bytes.chunks(4).zip((1..=126).rev()) {
        let number = u32::from_le_bytes(four.try_into().expect("504 is a multiple of four"));
        a = a.wrapping_add(number);
        b = b.wrapping_add(number.wrapping_mul(times));
    }
    bytes.extend(a.to_le_bytes());
    bytes.extend(b.to_le_bytes());
    bytes
}

fn check_layout() {
    for width in WRITTEN_WIDTHS {
        let mut sequence = Sequence::new(3);
        for count in counts(width) {
            let content = next_content(&mut sequence, width, count);
            assert!(written_block(&content) == Ok(laid_out(&content)));
        }
    }
}

/// "A written block reads back as the same width, number and words."
fn check_read_back() {
    for width in WRITTEN_WIDTHS {
        let mut sequence = Sequence::new(4);
        for count in counts(width) {
            for number in [0, 1, 0x0102_0304, u32::MAX] {
                let content = Content { number, ..next_content(&mut sequence, width, count) };
                let block = written_block(&content).expect("the content of w and c has no fault, c being at most full");
                assert!(Content::of(&block) == Ok(content));
            }
        }
    }
}

/// Whether the reader accepts the block. "Any block that the reader accepts is what the writer makes of its content", a
/// claim that "now speaks of widths 16, 32 and 64" (paper 02, Wish 10): the content of an old block is refused.
fn is_accepted(block: &[u8]) -> bool {
    let content = Content::of(block);
    if let Ok(content) = &content {
        let expected = match content.width {
            8 => Err(ColumnRefusal::OfAll(Refusal::Retired)),
            16 | 32 | 64 => Ok(block.to_vec()),
            width => panic!("{width} is no block's width"),
        };
        assert!(written_block(content) == expected);
    }
    content.is_ok()
}

/// Blocks of every width with every count of words.
fn check_every_count() {
    let mut sequence = Sequence::new(8);
    for width in BLOCK_WIDTHS {
        for count in 0..=room_of(width) {
            assert!(is_accepted(&laid_out(&next_content(&mut sequence, width, count))));
        }
    }
}

/// Blocks as they were drawn, blocks with one byte changed and the sums made good again, and blocks changed so that
/// neither sum differs. Of the changed ones many are accepted, and many aren't.
fn check_changed() {
    let mut sequence = Sequence::new(5);
    for width in BLOCK_WIDTHS {
        for count in [room_of(width) / 2, room_of(width)] {
            let block = next_block(&mut sequence, width, count);
            assert!(is_accepted(&block));
            let changed = (0..BLOCK_SIZE).map(|place| sealed_with_change(&block, place, sequence.next_number()));
            let accepted = changed.filter(|changed| is_accepted(changed)).count();
            // The bytes of the number, those of the words, and the eight of the sums, which are made good.
            assert!(accepted >= 4 + count * (width as usize / 8) + 8 && accepted < BLOCK_SIZE);
            // Three of the 126 numbers are changed, from a place on: the block number, which is at place 1, or words.
            let last = count * (width as usize / 8) / 4 - 1;
            for place in 1..=last {
                let d = 1 + sequence.next_number() % (TWO_TO_32 - 1);
                assert!(is_accepted(&change_of_kind(&block, 4, place, d)));
            }
        }
    }
}

/// The block with one byte changed, and sealed after that.
fn sealed_with_change(block: &Block, place: usize, chosen: u64) -> Block {
    let mut changed = *block;
    changed[place] ^= 1 + (chosen % 255) as u8;
    seal(&mut changed);
    changed
}

/// The blocks of three sheets: the paper's refusals are among them.
fn check_sheets() {
    for sheet in [rack_sheet(), old_sheet(), stack_sheet()] {
        let accepted = sheet.chunks(BLOCK_SIZE).filter(|block| is_accepted(block)).count();
        let blocks = sheet.chunks(BLOCK_SIZE).count();
        assert!(accepted > blocks / 2 && accepted < blocks);
    }
}

/// "Refusals: WIDTH, COUNT, SIZE, STRAY with its position, in that order": each alone, and of several the first.
fn check_faults() {
    use ColumnRefusal::{At, OfAll};
    use Refusal::{Count, Size, Stray, Width};
    let mut sequence = Sequence::new(6);
    for width in WRITTEN_WIDTHS {
        let drawn = next_content(&mut sequence, width, room_of(width) + 1);
        for faults in 0..16_u64 {
            let (content, size) = with_faults(&drawn, faults);
            // At width 64 there is no stray word, so that fault is none.
            let real = if width == 64 { faults % 8 } else { faults };
            let expected = match real {
                0 => Ok(laid_out(&content)),
                _ => Err([OfAll(Width), OfAll(Count), OfAll(Size), At(Stray, 1)][real.trailing_zeros() as usize]),
            };
            assert!(written(&content, size) == expected);
        }
    }
}

/// "Or a block's isn't one of its four": the widths of single words are refused too, also where there is no word. Of
/// the four, 8 is retired; a longer width that ends in the byte 8 is none of them.
fn check_widths() {
    for width in (0..=300).chain(BAD_WIDTHS).chain(BLOCK_WIDTHS.map(|width| (1 << 31) + width)) {
        for words in [vec![], vec![1]] {
            let answer = written_block(&Content { width, number: 5, words });
            match width {
                8 => assert!(answer == Err(ColumnRefusal::OfAll(Refusal::Retired))),
                16 | 32 | 64 => assert!(answer.is_ok()),
                _ => assert!(answer == Err(ColumnRefusal::OfAll(Refusal::Width))),
            }
        }
    }
}

/// "A block isn't 512 bytes."
fn check_sizes() {
    let content = Content { width: 16, number: 1, words: vec![0x5A00, 0x8000] };
    for size in (0..=1040).filter(|&size| size != 512) {
        assert!(written(&content, size) == Err(ColumnRefusal::OfAll(Refusal::Size)));
    }
}

/// STRAY carries "the lowest position that has one": of one stray word its own, and of two the lower one.
fn check_positions() {
    let mut sequence = Sequence::new(7);
    for width in [16, 32] {
        let content = next_content(&mut sequence, width, room_of(width));
        for (position, stray) in (0..room_of(width)).zip(stray_words(width).into_iter().cycle()) {
            let mut strayed = content.clone();
            let refused = Err(ColumnRefusal::At(Refusal::Stray, position));
            strayed.words[position] = stray;
            assert!(written_block(&strayed) == refused);
            let after = position + sequence.next_number() as usize % (room_of(width) - position);
            strayed.words[after] = u64::MAX;
            assert!(written_block(&strayed) == refused);
        }
    }
    // The greatest word of each width is not stray.
    for width in WRITTEN_WIDTHS {
        let content = Content { width, number: 0, words: vec![u64::MAX >> (64 - width); room_of(width)] };
        assert!(written_block(&content).is_ok_and(|block| block[8..504].iter().all(|&byte| byte == 0xFF)));
    }
}
