//! Refusals are errors with number, name and sentence, and a number that the crate does not know is kept.
use ledusprig::{calls, ColumnRefusal, NoRefusal, Refusal, Rule, BLOCK_SIZE};
use std::collections::HashSet;
use std::error::Error;

const NAMES: [&str; 11] = ["WIDTH", "STRAY", "NAR", "INEXACT", "OVER", "ROOM", "SIZE", "MARK", "CHECK", "COUNT", "FILL"];
const RETIRED: (u32, &str) = (13, "RETIRED");

#[test]
fn the_papers_numbers_have_names_and_sentences_of_their_own() {
    let mut sentences = HashSet::new();
    for (number, name) in (1..).zip(NAMES).chain([RETIRED]) {
        let refusal = Refusal::try_from(number).unwrap();
        assert_eq!((refusal.number(), refusal.name()), (number, name));
        let text = refusal.to_string();
        let sentence = text.strip_prefix(&format!("refusal {number} ({name}): ")).unwrap();
        assert!(sentence.len() > 10 && sentences.insert(sentence.to_string()), "{text}");
    }
}

#[test]
fn a_number_that_is_not_known_is_kept() {
    for number in [12, 14, 15, 16, u32::MAX] {
        let refusal = Refusal::try_from(number).unwrap();
        assert!(matches!(refusal, Refusal::Other { .. }));
        assert_eq!((refusal.number(), refusal.name()), (number, "UNKNOWN"));
        assert!(refusal.to_string().starts_with(&format!("refusal {number} (UNKNOWN): ")));
    }
}

#[test]
fn zero_is_no_refusal() {
    assert!(matches!(Refusal::try_from(0), Err(NoRefusal { .. })));
}

#[test]
fn all_are_errors() {
    fn is_error<T: Error + Send + Sync + 'static>() {}
    is_error::<Refusal>();
    is_error::<NoRefusal>();
    is_error::<ColumnRefusal>();
}

#[test]
fn a_column_tells_the_word_that_is_refused() {
    let refused = |words: &[u64], room: usize| calls::move_column(16, 8, Rule::Strict, words, &mut vec![0; room]).unwrap_err();
    let inexact = refused(&[0x4000, 0x4000, 0x4000, 0x5A01], 4);
    assert_eq!((inexact.refusal, inexact.position), (Refusal::Inexact, Some(3)));
    assert_eq!(inexact.to_string(), format!("{}, at position 3", Refusal::Inexact));
    let stray = refused(&[0x10000], 1);
    assert_eq!((stray.refusal, stray.position), (Refusal::Stray, Some(0)));
    let room = refused(&[0x4000, 0x5A01], 1);
    assert_eq!(room, ColumnRefusal::from(Refusal::Room));
    assert_eq!((room.position, room.to_string()), (None, Refusal::Room.to_string()));
}

#[test]
fn a_block_tells_the_word_that_is_refused() {
    let refused = |width: u32, words: &[u64], size: usize| calls::write_block(width, 1, words, &mut vec![0; size]).unwrap_err();
    let stray = refused(16, &[0x4000, 0x5A00, 0x10000, 0x4000, 0x20000], BLOCK_SIZE);
    assert_eq!((stray.refusal, stray.position), (Refusal::Stray, Some(2)));
    assert_eq!(stray.to_string(), format!("{}, at position 2", Refusal::Stray));
    // the whole block is refused before its words are looked at
    assert_eq!(refused(12, &[0x10000; 500], 0), ColumnRefusal::from(Refusal::Width));
    assert_eq!(refused(8, &[0x10000; 500], 0), ColumnRefusal::from(Refusal::Retired));
    assert_eq!(refused(8, &[], BLOCK_SIZE), ColumnRefusal::from(Refusal::Retired));
    assert_eq!(refused(16, &[0x10000; 249], 0), ColumnRefusal::from(Refusal::Count));
    assert_eq!(refused(16, &[0x10000; 248], 511), ColumnRefusal::from(Refusal::Size));
}
