//! Checks of the papers' statements on columns; written from the papers alone.

use crate::census::columns::exact_column;
use crate::sheets::columns::{move_column, ColumnRefusal, Moved, Rule};
use crate::words::refusals::Refusal;
use crate::words::sequence::Sequence;
use crate::words::values::value;
use crate::writing::moving::move_word;
use crate::writing::sayings::Saying;

pub fn check() {
    check_moved();
    check_exact_columns();
    check_counts();
    check_positions();
    check_order();
}

const UNTOUCHED: u64 = 0xDEAD;

/// Moves a column into a slice of that room. On a refusal nothing may have been written, and on success nothing past the
/// results; the answer is then the results, and how many of them are exact.
fn moved(widths: (u32, u32), rule: Rule, words: &[u64], room: usize) -> Result<(Vec<u64>, usize), ColumnRefusal> {
    let mut results = vec![UNTOUCHED; room];
    let answer = move_column(widths.0, widths.1, rule, words, &mut results);
    let count = answer.map_or(0, |moved| moved.count);
    assert!(results[count..].iter().all(|&number| number == UNTOUCHED));
    answer.map(|Moved { exact, .. }| (results[..count].to_vec(), exact))
}

/// A column from width 32 to 16: 512, 513 and 515 (paper 01, "Figures"), NaR, and a tally in the other direction.
fn check_moved() {
    // The words of 512, 514, 516 and NaR at both widths: "going wider never changes a value".
    let narrow = [0x5A00, 0x5A01, 0x5A02, 0x8000];
    let wide = [0x5A00_0000, 0x5A01_0000, 0x5A02_0000, 0x8000_0000];
    for room in [4, 5, 100] {
        for rule in [Rule::Rounded, Rule::Strict] {
            assert!(moved((16, 32), rule, &narrow, room) == Ok((wide.to_vec(), 4)));
            assert!(moved((32, 16), rule, &wide, room) == Ok((narrow.to_vec(), 4)));
        }
    }
    // 513 and 515 lie halfway: 512 and 516 have the even words. Strict, the first of them is refused.
    let tallies = [0x5A00_0000, 0x5A00_8000, 0x5A01_8000];
    assert!(moved((32, 16), Rule::Rounded, &tallies, 3) == Ok((vec![0x5A00, 0x5A00, 0x5A02], 1)));
    assert!(moved((32, 16), Rule::Strict, &tallies, 3) == Err(ColumnRefusal::At(Refusal::Inexact, 1)));
    // "An empty column moves 0 words."
    assert!(moved((16, 32), Rule::Strict, &[], 0) == Ok((vec![], 0)));
    assert!(moved((16, 32), Rule::Rounded, &[], 3) == Ok((vec![], 0)));
}

/// The exact columns of the census move strictly, and every value stays.
fn check_exact_columns() {
    for widths in [(2, 64), (64, 2), (16, 8), (13, 11), (16, 16), (63, 62), (62, 63)] {
        let column = exact_column(&mut Sequence::new(0), widths, 40);
        let strict = moved(widths, Rule::Strict, &column, 40).expect("every word of an exact column moves exactly");
        assert!(moved(widths, Rule::Rounded, &column, 40).as_ref() == Ok(&strict));
        assert!(strict.1 == 40);
        for (&before, &after) in column.iter().zip(&strict.0) {
            assert!(value(widths.0, before) == value(widths.1, after));
        }
    }
}

/// "Rounded column moves answer, beside the number moved, how many elements were exact." These are the elements of which
/// a single move says so. Columns with all of them, with some and with none are among those drawn.
fn check_counts() {
    let mut sequence = Sequence::new(1);
    let (mut all, mut some, mut none) = (0, 0, 0);
    for (from, to) in [(2, 64), (64, 2), (8, 16), (16, 8), (13, 11), (32, 16), (64, 16), (63, 62), (62, 63)] {
        for length in 1..=16 {
            let column: Vec<u64> = (0..length).map(|_place| sequence.next_word(from)).collect();
            let said = |word: &u64| move_word(from, to, *word).rounded.unwrap().saying;
            let count = column.iter().filter(|&word| said(word) == Saying::Exact).count();
            let (_, exact) = moved((from, to), Rule::Rounded, &column, length).unwrap();
            assert!(exact == count);
            match exact {
                0 => none += 1,
                _ if exact == length => all += 1,
                _ => some += 1,
            }
        }
    }
    assert!(all > 0 && some > 0 && none > 0);
    // NaR for NaR and zero for zero are exact. The end words of 32 bits lie past those of 16.
    let column = [0x8000_0000, 0, 0x7FFF_FFFF, 1, 0x8000_0001, 0xFFFF_FFFF];
    let ends = vec![0x8000, 0, 0x7FFF, 1, 0x8001, 0xFFFF];
    assert!(moved((32, 16), Rule::Rounded, &column, 6) == Ok((ends, 2)));
}

/// "An element's refusal carries the lowest position that has one." STRAY and INEXACT have the same rank but at one
/// position, where STRAY comes first.
fn check_positions() {
    let (good, inexact, stray) = (0x5A00_0000, 0x5A00_8000, 0x1_5A00_0000);
    let refused = |words: &[u64], refusal, position| {
        assert!(moved((32, 16), Rule::Strict, words, words.len()) == Err(ColumnRefusal::At(refusal, position)));
    };
    refused(&[inexact, good, stray], Refusal::Inexact, 0);
    refused(&[good, inexact, stray], Refusal::Inexact, 1);
    refused(&[good, stray, inexact], Refusal::Stray, 1);
    refused(&[good, good, stray + 0x8000], Refusal::Stray, 2);
    let rounded = moved((32, 16), Rule::Rounded, &[inexact, inexact, stray], 3);
    assert!(rounded == Err(ColumnRefusal::At(Refusal::Stray, 2)));
}

/// "WIDTH (source, then target), ROOM, STRAY": the ones before a position is tried.
fn check_order() {
    let stray = [0x10000];
    for rule in [Rule::Rounded, Rule::Strict] {
        for widths in [(0, 16), (16, 65), (1, u32::MAX)] {
            for words in [&stray[..], &[]] {
                assert!(moved(widths, rule, words, 0) == Err(ColumnRefusal::OfAll(Refusal::Width)));
            }
        }
        assert!(moved((16, 16), rule, &stray, 0) == Err(ColumnRefusal::OfAll(Refusal::Room)));
        assert!(moved((16, 16), rule, &stray, 1) == Err(ColumnRefusal::At(Refusal::Stray, 0)));
    }
}
