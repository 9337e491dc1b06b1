//! The laws of moving: out and back, negation, order, and what a middle width changes.
use ledusprig::{Refusal, Rule, Saying, Takum, Value, Width, Written};
use std::cmp::Ordering;

fn moved(word: Takum, to: Width) -> Written<Takum> {
    word.move_to(to, Rule::Rounded).unwrap()
}

fn widths(bits: std::ops::RangeInclusive<u32>) -> impl Iterator<Item = Width> {
    bits.map(|bits| Width::new(bits).unwrap())
}

/// Every word of the widths up to 8, and some 256 words of each wider one, far apart.
fn words() -> impl Iterator<Item = Takum> {
    widths(2..=64).flat_map(|width| {
        let last = u64::MAX >> (64 - width.bits());
        let step = (last / 255).max(1);
        (0..=last / step).map(move |place| Takum::new(width, place * step).unwrap())
    })
}

/// What is said of the negated value.
fn exchanged(saying: Saying) -> Saying {
    match saying {
        Saying::Below => Saying::Above,
        Saying::Above => Saying::Below,
        other => other,
    }
}

#[test]
fn out_and_back_gives_the_first_move() {
    for word in words() {
        for b in widths(2..=64) {
            let there = moved(word, b).word;
            for c in widths(b.bits()..=64).step_by(7) {
                assert_eq!(moved(moved(there, c).word, b), Written { word: there, saying: Saying::Exact }, "{word:?} to {b}, to {c} and back");
            }
        }
    }
}

#[test]
fn the_negated_word_moves_to_the_negated_one() {
    let mut exchanges = 0;
    for word in words() {
        for b in widths(2..=64) {
            let Written { word: there, saying } = moved(word, b);
            assert_eq!(moved(-word, b), Written { word: -there, saying: exchanged(saying) }, "{word:?} to {b}");
            exchanges += u32::from(saying != exchanged(saying));
        }
    }
    assert!(exchanges > 0);
}

#[test]
fn the_order_is_never_reversed() {
    let mut made_equal = 0;
    for (x, y) in words().zip(words().skip(1)).filter(|(x, y)| x.width() == y.width()) {
        for b in widths(2..=64) {
            let (before, after) = (x.partial_cmp(&y).unwrap(), moved(x, b).word.partial_cmp(&moved(y, b).word).unwrap());
            assert!(after == before || after == Ordering::Equal, "{x:?} and {y:?} to {b}");
            made_equal += u32::from(after != before);
        }
    }
    assert!(made_equal > 0);
}

#[test]
fn a_middle_width_that_is_exact_or_as_wide_changes_nothing() {
    let mut changed = 0;
    for word in words() {
        assert_eq!(moved(word, word.width()), Written { word, saying: Saying::Exact });
        for b in widths(2..=64).step_by(5) {
            let there = moved(word, b);
            assert!(b < word.width() || there.is_exact());
            for c in widths(2..=64).step_by(3) {
                let (by_b, direct) = (moved(there.word, c), moved(word, c));
                assert!(by_b == direct || !there.is_exact(), "{word:?} to {c} by way of {b}");
                changed += u32::from(by_b.word != direct.word);
            }
        }
    }
    assert!(changed > 0);
}

#[test]
fn by_way_of_32_bits_it_is_512_and_directly_514() -> Result<(), Refusal> {
    let word = Width::W64.write(Rule::Strict, Value { negative: false, m: (513 << 20) + 1, k: -20 })?.word;
    let whole = |width, x: i64| Takum::try_from((width, x));
    assert_eq!(moved(word, Width::W16), Written { word: whole(Width::W16, 514)?, saying: Saying::Above });
    assert_eq!(moved(word, Width::W32), Written { word: whole(Width::W32, 513)?, saying: Saying::Below });
    assert_eq!(moved(whole(Width::W32, 513)?, Width::W16), Written { word: whole(Width::W16, 512)?, saying: Saying::Below });
    Ok(())
}
