//! The calls of one word, each by plain numbers and by the types, which must answer the same.
use crate::text::{put, put_saying, stop, Given};
use std::cmp::Ordering;
use std::fmt::{Debug, Write};
use ledusprig::{calls, Kind, Reading, Refusal, Rule, Saying, Taking, Takum, Value, Width, Written, BLOCK_SIZE, BLOCK_WORDS};

/// The answer by plain numbers; where the one by the types is another, the text says so.
pub fn same<T: PartialEq + Debug>(to: &mut String, plain: T, typed: T) -> T {
    if plain != typed {
        write!(to, "by the types {typed:?} but otherwise ").expect("a text takes all that is put");
    }
    plain
}

fn put_word(to: &mut String, plain: Result<u64, Refusal>, typed: Result<Takum, Refusal>) {
    let answer = same(to, plain, typed.map(Takum::word));
    put(to, answer, |to, word| write!(to, "word {word:#x}"));
}

fn put_written(to: &mut String, plain: Result<Written, Refusal>, typed: Result<Written<Takum>, Refusal>) {
    let answer = same(to, plain, typed.map(|Written { word, saying }| Written { word: word.word(), saying }));
    put(to, answer, |to, Written { word, saying }| {
        write!(to, "word {word:#x} ")?;
        put_saying(to, saying)
    });
}

pub fn rule(given: &mut Given) -> Rule {
    given.choice(("rounded", Rule::Rounded), ("strict", Rule::Strict))
}

/// A width by its conversion, which must be as `Width::new` has it.
fn width(n: u32) -> Result<Width, Refusal> {
    let width = Width::try_from(n);
    assert_eq!((width, width.map_or(n, u32::from)), (Width::new(n), n));
    width
}

fn takum(n: u32, word: u64) -> Result<Takum, Refusal> {
    let takum = Takum::new(width(n)?, word)?;
    assert!(takum.width().bits() == n && takum.word() == word);
    Ok(takum)
}

/// The answer by the types; where there is a conversion, and it answers another, the text says so. What can fail is strict, as conversions are.
fn same_by_conversion<T: PartialEq>(to: &mut String, is_one: bool, typed: T, converted: impl FnOnce() -> T) -> T {
    if is_one && converted() != typed {
        to.push_str("by conversion another, and ");
    }
    typed
}

/// What is converted is exact.
fn exactly(word: Takum) -> Written<Takum> {
    Written { word, saying: Saying::Exact }
}

pub fn constant(given: &mut Given, to: &mut String) {
    let value = match given.part() {
        "LEAST_WIDTH" => Width::LEAST.bits() as usize,
        "GREATEST_WIDTH" => Width::GREATEST.bits() as usize,
        "BLOCK_SIZE" => BLOCK_SIZE,
        "BLOCK_WORDS" => BLOCK_WORDS,
        "EXACT" => Saying::Exact as usize,
        "BELOW" => Saying::Below as usize,
        "ABOVE" => Saying::Above as usize,
        "PAST_THE_END" => Saying::PastTheEnd as usize,
        name => stop("there is no such constant", name),
    };
    to.push_str(&value.to_string());
}

pub fn largest(given: &mut Given, to: &mut String) {
    let n = given.width();
    put_word(to, calls::largest(n), width(n).map(Width::largest));
}

pub fn smallest(given: &mut Given, to: &mut String) {
    let n = given.width();
    put_word(to, calls::smallest(n), width(n).map(Width::smallest));
}

pub fn nar(given: &mut Given, to: &mut String) {
    let n = given.width();
    put_word(to, calls::nar(n), width(n).map(Width::nar));
}

pub fn limit(given: &mut Given, to: &mut String) {
    let n = given.width();
    let answer = same(to, calls::limit(n), width(n).map(Width::limit));
    put(to, answer, |to, limit| write!(to, "limit {limit}"));
}

pub fn read(given: &mut Given, to: &mut String) {
    let (n, word) = (given.width(), given.number());
    let plain = calls::read(n, word).map(|reading| (reading, reading.kind == Kind::Zero, reading.kind == Kind::Nar));
    let typed = takum(n, word).map(|takum| (takum.read(), takum.is_zero(), takum.is_nar()));
    let answer = same(to, plain, typed);
    put(to, answer, |to, (Reading { kind, own }, _, _)| match kind {
        Kind::Zero => write!(to, "zero {own}"),
        Kind::Nar => write!(to, "nar {own}"),
        Kind::Number { negative, h, m, p } => write!(to, "number {} {h} {m} {p} {own}", if negative { "minus" } else { "plus" }),
    });
}

pub fn compare(given: &mut Given, to: &mut String) {
    let (n, x, y) = (given.width(), given.number(), given.number());
    let typed = takum(n, x).and_then(|x| takum(n, y).map(|y| x.partial_cmp(&y)));
    let answer = same(to, calls::compare(n, x, y).map(Some), typed);
    put(to, answer, |to, order| {
        let order = match order {
            Some(Ordering::Less) => "-1",
            Some(Ordering::Equal) => "0",
            Some(Ordering::Greater) => "1",
            None => "none",
        };
        write!(to, "order {order}")
    });
}

pub fn negate(given: &mut Given, to: &mut String) {
    let (n, word) = (given.width(), given.number());
    put_word(to, calls::negate(n, word), takum(n, word).map(|takum| -takum));
}

pub fn write(given: &mut Given, to: &mut String) {
    let (n, rule) = (given.width(), rule(given));
    let negative = given.choice(("plus", false), ("minus", true));
    let value = Value { negative, m: given.number(), k: given.signed() as i32 };
    put_written(to, calls::write(n, rule, value), width(n).and_then(|width| width.write(rule, value)));
}

pub fn move_word(given: &mut Given, to: &mut String) {
    let (source, target, rule, word) = (given.width(), given.width(), rule(given), given.number());
    let typed = || {
        let (source, target) = (Width::new(source)?, Width::new(target)?);
        Takum::new(source, word)?.move_to(target, rule)
    };
    put_written(to, calls::move_word(source, target, rule, word), typed());
}

pub fn write_whole(given: &mut Given, to: &mut String) {
    let (n, rule, x) = (given.width(), rule(given), given.signed());
    let typed = width(n).and_then(|width| width.write_whole(rule, x));
    let typed = same_by_conversion(to, rule == Rule::Strict, typed, || Takum::try_from((width(n)?, x)).map(exactly));
    put_written(to, calls::write_whole(n, rule, x), typed);
}

pub fn take_whole(given: &mut Given, to: &mut String) {
    let n = given.width();
    let taking = given.choice(("nearest", Taking::Nearest), ("strict", Taking::Strict));
    let word = given.number();
    let typed = takum(n, word).and_then(|takum| takum.take_whole(taking));
    let typed = same_by_conversion(to, taking == Taking::Strict, typed, || i64::try_from(takum(n, word)?));
    let answer = same(to, calls::take_whole(n, taking, word), typed);
    put(to, answer, |to, whole| write!(to, "whole {whole}"));
}

pub fn shortest_width(given: &mut Given, to: &mut String) {
    let x = given.signed();
    let answer = same(to, calls::shortest_width(x), Width::shortest(x).map(Width::bits));
    put(to, answer, |to, width| write!(to, "width {width}"));
}

pub fn write_binary64(given: &mut Given, to: &mut String) {
    let (n, rule, x) = (given.width(), rule(given), f64::from_bits(given.number()));
    let typed = width(n).and_then(|width| width.write_binary64(rule, x));
    let typed = same_by_conversion(to, rule == Rule::Strict, typed, || Takum::try_from((width(n)?, x)).map(exactly));
    put_written(to, calls::write_binary64(n, rule, x), typed);
}

pub fn take_binary64(given: &mut Given, to: &mut String) {
    let (n, word) = (given.width(), given.number());
    let pattern = |number: Option<f64>| number.map(f64::to_bits);
    let typed = takum(n, word).map(|takum| pattern(takum.take_binary64()));
    let converted = || takum(n, word).map(f64::from).map(|number| pattern(Some(number).filter(|number| !number.is_nan())));
    let typed = same_by_conversion(to, true, typed, converted);
    let answer = same(to, calls::take_binary64(n, word).map(pattern), typed);
    put(to, answer, |to, pattern| match pattern {
        Some(pattern) => write!(to, "number {pattern:#x}"),
        None => write!(to, "nar"),
    });
}
