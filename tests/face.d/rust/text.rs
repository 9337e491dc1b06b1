//! The text of a case, taken apart and put together.
use std::borrow::Cow;
use std::fmt::Write;
use ledusprig::{Refusal, Saying};

/// Ends the program: the case can't be understood.
pub fn stop(why: &str, text: &str) -> ! {
    println!("from Rust: a case can't be understood, {why}: {text}");
    std::process::exit(1);
}

/// What a call is given; its parts are taken from the front.
pub struct Given<'a> {
    pub rest: &'a str,
}

/// A piece of a row, and how often it stands there: N where `*N` follows it, or once.
fn repeated(piece: &str) -> (&str, usize) {
    let (piece, times) = piece.split_once('*').unwrap_or((piece, "1"));
    match number_of(times) as usize {
        0 => stop("no such repeat", piece),
        times => (piece, times),
    }
}

fn number_of(part: &str) -> u64 {
    let parsed = match part.strip_prefix("0x") {
        Some(digits) => u64::from_str_radix(digits, 16),
        None => part.parse(),
    };
    parsed.unwrap_or_else(|_| stop("no number", part))
}

impl<'a> Given<'a> {
    /// The next part, up to a space.
    pub fn part(&mut self) -> &'a str {
        let (part, rest) = self.rest.split_once(' ').unwrap_or((self.rest, ""));
        self.rest = rest;
        part
    }

    /// A number, decimal or in hex after 0x.
    pub fn number(&mut self) -> u64 {
        number_of(self.part())
    }

    pub fn signed(&mut self) -> i64 {
        let part = self.part();
        part.parse().unwrap_or_else(|_| stop("no number", part))
    }

    pub fn width(&mut self) -> u32 {
        self.number() as u32
    }

    /// One of two choices by its name.
    pub fn choice<T>(&mut self, first: (&str, T), second: (&str, T)) -> T {
        match self.part() {
            part if part == first.0 => first.1,
            part if part == second.0 => second.1,
            part => stop("no such choice", part),
        }
    }

    pub fn room(&mut self) -> usize {
        if self.part() != "room" {
            stop("no room", self.rest);
        }
        self.number() as usize
    }

    pub fn size(&mut self) -> usize {
        if self.part() != "size" {
            stop("no size", self.rest);
        }
        self.number() as usize
    }

    /// The pieces of a row, none where it is `-`.
    fn pieces(&mut self) -> impl Iterator<Item = &'a str> {
        let part = self.part();
        let row = if part == "-" { None } else { Some(part.split(',')) };
        row.into_iter().flatten()
    }

    /// A row of words, each perhaps repeated, as 0x5a00,0x1*2 for 0x5a00,0x1,0x1.
    pub fn words(&mut self) -> Vec<u64> {
        let mut words = Vec::new();
        for (word, times) in self.pieces().map(repeated) {
            words.resize(words.len() + times, number_of(word));
        }
        words
    }

    /// The bytes of a block: pieces of hex digits, each piece perhaps repeated, as 5410,00*3 for 5410000000.
    pub fn bytes(&mut self) -> Vec<u8> {
        let mut bytes = Vec::new();
        for (digits, times) in self.pieces().map(repeated) {
            if digits.len() % 2 != 0 {
                stop("half a byte", digits);
            }
            let byte = |at: usize| u8::from_str_radix(&digits[at..at + 2], 16).unwrap_or_else(|_| stop("no byte", digits));
            let start = bytes.len();
            bytes.extend((0..digits.len()).step_by(2).map(byte));
            for _ in 1..times {
                bytes.extend_from_within(start..start + digits.len() / 2);
            }
        }
        bytes
    }
}

/// Paper 01's name for the refusal that the bindings give their own name, by the variant: the name that the bindings tell must be the same.
fn name_of(refusal: Refusal) -> &'static str {
    match refusal {
        Refusal::Width => "WIDTH",
        Refusal::Stray => "STRAY",
        Refusal::Nar => "NAR",
        Refusal::Inexact => "INEXACT",
        Refusal::Over => "OVER",
        Refusal::Room => "ROOM",
        Refusal::Size => "SIZE",
        Refusal::Mark => "MARK",
        Refusal::Check => "CHECK",
        Refusal::Count => "COUNT",
        Refusal::Fill => "FILL",
        Refusal::Retired => "RETIRED",
        _ => "of no name",
    }
}

/// The text of a refusal; where its number or its name does not lead back to it, the text says so.
fn put_refusal(to: &mut String, refusal: Refusal) -> std::fmt::Result {
    let (number, name) = (refusal.number(), name_of(refusal));
    write!(to, "refused {number} {name}")?;
    if refusal.name() != name || Refusal::try_from(number) != Ok(refusal) {
        write!(to, ", which the bindings call {} and {number} {:?}", refusal.name(), Refusal::try_from(number))?;
    }
    Ok(())
}

/// Puts the text of an answer, or of its refusal by its number and name.
pub fn put<T>(to: &mut String, answer: Result<T, Refusal>, text: impl FnOnce(&mut String, T) -> std::fmt::Result) {
    match answer {
        Ok(answer) => text(to, answer),
        Err(refusal) => put_refusal(to, refusal),
    }
    .expect("a text takes all that is put");
}

/// What is said of a word, by the variant; where the bindings show it by another text, that is put too.
pub fn put_saying(to: &mut String, saying: Saying) -> std::fmt::Result {
    let text = match saying {
        Saying::Exact => "exact",
        Saying::Below => "below",
        Saying::Above => "above",
        Saying::PastTheEnd => "past_the_end",
    };
    to.push_str(text);
    if saying.to_string() != text.replace('_', " ") {
        write!(to, ", which the bindings show as {saying}")?;
    }
    Ok(())
}

pub fn put_words(to: &mut String, words: &[u64]) -> std::fmt::Result {
    if words.is_empty() {
        to.push('-');
    }
    for (place, word) in words.iter().enumerate() {
        write!(to, "{}{word:#x}", if place == 0 { "" } else { "," })?;
    }
    Ok(())
}

pub fn put_bytes(to: &mut String, bytes: &[u8]) -> std::fmt::Result {
    bytes.iter().try_for_each(|byte| write!(to, "{byte:02x}"))
}

/// The answer that a case expects, as the calls put it: the bytes after `written`, which may be pieces, spelled out.
pub fn spelled_out(expected: &str) -> Cow<'_, str> {
    let Some(pieces) = expected.strip_prefix("written ") else {
        return Cow::Borrowed(expected);
    };
    let mut given = Given { rest: pieces };
    let mut spelled = String::from("written ");
    put_bytes(&mut spelled, &given.bytes()).expect("a text takes all that is put");
    spelled.push_str(given.rest);
    Cow::Owned(spelled)
}
