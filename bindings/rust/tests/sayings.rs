//! Which way a value went: what the call says is what the value and the word tell, and a column counts what is exact.
use ledusprig::{calls, Refusal, Rule, Saying, Takum, Value, Width, Written};
use std::cmp::Ordering;

/// The saying by the values themselves, as doubles; those of words of up to 57 bits are exact.
fn told(value: f64, word: Takum) -> Saying {
    let [smallest, largest] = [word.width().smallest(), word.width().largest()].map(f64::from);
    match f64::from(word).partial_cmp(&value) {
        None | Some(Ordering::Equal) => Saying::Exact, // NaR is no number
        _ if value.abs() < smallest || value.abs() > largest => Saying::PastTheEnd,
        Some(Ordering::Less) => Saying::Below,
        Some(Ordering::Greater) => Saying::Above,
    }
}

/// Asserts that a rounded call says what is told of a value, and that the strict one is refused where this isn't exact.
fn agrees(value: f64, write: impl Fn(Rule) -> Result<Written<Takum>, Refusal>) -> Saying {
    let rounded = write(Rule::Rounded).unwrap();
    assert_eq!(rounded.saying, told(value, rounded.word), "{value:e} as {:?}", rounded.word);
    assert_eq!(rounded.is_exact(), rounded.saying == Saying::Exact);
    assert_eq!(write(Rule::Strict), if rounded.is_exact() { Ok(rounded) } else { Err(Refusal::Inexact) });
    rounded.saying
}

/// How often each was said.
#[derive(Default)]
struct Tally([u32; 4]);

impl Tally {
    fn take(&mut self, saying: Saying) {
        self.0[saying as usize] += 1;
    }

    fn has_all(&self) -> bool {
        self.0.iter().all(|&times| times > 0)
    }
}

fn widths() -> impl Iterator<Item = Width> {
    (2..=20).map(|bits| Width::new(bits).unwrap())
}

#[test]
fn every_word_of_16_bits_is_moved_as_its_value_tells() {
    let mut said = Tally::default();
    for word in 0..=0xFFFF {
        let takum = Takum::new(Width::W16, word).unwrap();
        for to in widths() {
            let saying = agrees(f64::from(takum), |rule| takum.move_to(to, rule));
            assert!(to < Width::W16 || saying == Saying::Exact);
            said.take(saying);
        }
    }
    assert!(said.has_all());
}

#[test]
fn doubles_and_values_beside_every_word_of_10_bits_say_so() {
    let mut said = Tally::default();
    for word in 0..=0x3FF {
        let middle = f64::from(Takum::new(Width::new(10).unwrap(), word).unwrap());
        let next = |by: i64| f64::from_bits(middle.to_bits().wrapping_add_signed(by));
        for x in [middle, next(1), next(-1), middle * 1.5] {
            let value = Value { negative: x < 0.0, m: x.abs().to_bits() << 12 >> 12 | 1 << 52, k: (x.abs().to_bits() >> 52) as i32 - 1075 };
            for width in widths() {
                said.take(agrees(x, |rule| width.write_binary64(rule, x)));
                if x.is_normal() {
                    assert_eq!(width.write(Rule::Rounded, value), width.write_binary64(Rule::Rounded, x));
                }
            }
        }
    }
    assert!(said.has_all());
}

#[test]
fn whole_numbers_about_the_limit_of_the_tag_say_so() {
    for x in -2100..=2100 {
        for width in widths() {
            let saying = agrees(x as f64, |rule| width.write_whole(rule, x));
            assert!(x.unsigned_abs() > width.limit() || saying == Saying::Exact);
        }
    }
}

#[test]
fn what_is_no_number_is_exact() {
    for width in widths() {
        for x in [f64::NAN, f64::INFINITY, f64::NEG_INFINITY] {
            assert_eq!(width.write_binary64(Rule::Rounded, x), Ok(Written { word: width.nar(), saying: Saying::Exact }));
        }
        for x in [0.0, -0.0] {
            assert_eq!(width.write_binary64(Rule::Rounded, x), Ok(Written { word: width.zero(), saying: Saying::Exact }));
        }
    }
}

#[test]
fn past_the_end_goes_before_below_and_above() {
    for bits in 2..=64 {
        let width = Width::new(bits).unwrap();
        for negative in [false, true] {
            let end = |word: Takum| Ok(Written { word: if negative { -word } else { word }, saying: Saying::PastTheEnd });
            assert_eq!(width.write(Rule::Rounded, Value { negative, m: 1, k: 300 }), end(width.largest()));
            assert_eq!(width.write(Rule::Rounded, Value { negative, m: 1, k: -300 }), end(width.smallest()));
        }
    }
}

#[test]
fn a_column_counts_the_words_that_are_exact() {
    let words: Vec<u64> = (0..=0xFFFF).collect();
    let mut results = vec![0; words.len()];
    for to in 2..=20 {
        let said = words.iter().filter(|&&word| calls::move_word(16, to, Rule::Rounded, word).unwrap().is_exact());
        let column = calls::move_column(16, to, Rule::Rounded, &words, &mut results).unwrap();
        assert_eq!((column.moved, column.exact), (words.len(), said.count()));
        assert_eq!(column.exact, words.len().min(1 << to));
    }
    assert_eq!(calls::move_column(16, 8, Rule::Rounded, &[], &mut []).map(|column| (column.moved, column.exact)), Ok((0, 0)));
}
