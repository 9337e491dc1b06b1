//! Asks the library a question from the command line: `cargo run --example takum -- write-whole 16 rounded 515`; `help` says more.
use ledusprig::{Kind, Refusal, Rule, Saying, Taking, Takum, Value, Width, Written};
use std::cmp::Ordering;
use std::fmt::Display;
use std::io::{self, ErrorKind, Write};
use std::process::ExitCode;

const HELP: &str = "Usage: takum QUESTION

    write-whole WIDTH RULE NUMBER     the word for a whole number, as 515
    write WIDTH RULE NUMBER           the word for a number, as -1.5 or 3*2^-1
    write-double WIDTH RULE NUMBER    the word for the double nearest to a number, as 0.1 or nan
    read WIDTH WORD                   the value of a word, and how many fraction bits are its own
    take-whole WIDTH TAKING WORD      the whole number of a word
    take-double WIDTH WORD            the double for a word
    move FROM TO RULE WORD            the word of width TO for the value of a word of width FROM
    compare WIDTH WORD WORD           the order of two words
    negate WIDTH WORD                 the word with the negated value
    limit WIDTH                       up to where every whole number has a word
    shortest-width NUMBER             the fewest bits in which a whole number has a word
    largest WIDTH, smallest WIDTH     the end words
    nar WIDTH, zero WIDTH             the words that have no sign
    help                              this text

A WIDTH is a number of bits, 2 to 64. A RULE is rounded (the nearest word) or strict (exactly the value, or a refusal). A TAKING is nearest (the
nearest whole number, halves to the even one) or strict. A WORD is digits without a sign, in hex after 0x, in binary after 0b; the lister's words
are in hex and need 0x before them. A value with ~ before it is shown by some of its digits only; `read` tells it exactly. Of a word that is written or
moved it is said which way the value went: exact, below (the word is below it), above, or past the end.
The status is 0 where the question was answered, 1 where it was refused, 2 where it can't be understood, 3 where the answer can't be put out.";

/// Why there is no answer.
enum Failure {
    /// The library refuses: all that is said about it.
    Refused(String),
    /// The question can't be understood.
    Usage(String),
}

impl From<Refusal> for Failure {
    fn from(refusal: Refusal) -> Failure {
        Failure::Refused(refusal.to_string())
    }
}

type Answer<T = String> = Result<T, Failure>;

fn main() -> ExitCode {
    let given: Vec<String> = std::env::args_os().skip(1).map(|word| word.to_string_lossy().into_owned()).collect();
    let given: Vec<&str> = given.iter().map(String::as_str).collect();
    match answer(&given) {
        Ok(answer) => put(&answer, 0),
        Err(Failure::Refused(why)) => put(&why, 1),
        Err(Failure::Usage(why)) => {
            complain(&format!("{why}; `takum help` says what can be asked"));
            ExitCode::from(2)
        }
    }
}

/// Ends with the status if the text can be put out. Whoever closed the pipe wants to read no more, so that this is no reason to complain.
fn put(text: &str, status: u8) -> ExitCode {
    let mut out = io::stdout();
    match writeln!(out, "{text}").and_then(|()| out.flush()) {
        Ok(()) => return ExitCode::from(status),
        Err(why) if why.kind() == ErrorKind::BrokenPipe => (),
        Err(why) => complain(&format!("the answer can't be put out: {why}")),
    }
    ExitCode::from(3)
}

fn complain(sentence: &str) {
    // where this can't be put out either, the status alone says it
    _ = writeln!(io::stderr(), "takum: {sentence}");
}

fn answer(given: &[&str]) -> Answer {
    match *given {
        ["help" | "--help" | "-h"] => Ok(HELP.to_string()),
        ["write-whole", n, r, x] => {
            let (width, x) = (width(n)?, number::<i64>(x, "whole number of 64 bits")?);
            let value = Value { negative: x < 0, m: x.unsigned_abs(), k: 0 };
            written(rule(r)?, x, value, |rule| width.write_whole(rule, x))
        }
        ["write", n, r, x] => {
            let (width, value) = (width(n)?, value(x)?);
            written(rule(r)?, x, value, |rule| width.write(rule, value))
        }
        ["write-double", n, r, x] => {
            let (width, x) = (width(n)?, number::<f64>(x, "number")?);
            let answer = written(rule(r)?, format_args!("the double {x:?}"), value_of_double(x), |rule| width.write_binary64(rule, x));
            told_first(&format!("double {x:?}"), answer)
        }
        ["read", n, word] => Ok(read(takum(n, word)?)),
        ["take-whole", n, taking, word] => {
            let taking = choice(taking, [("nearest", Taking::Nearest), ("strict", Taking::Strict)])?;
            Ok(takum(n, word)?.take_whole(taking)?.to_string())
        }
        ["take-double", n, word] => Ok(format!("{:?}", f64::from(takum(n, word)?))),
        ["move", from, to, r, word] => {
            let (from, to) = (width(from)?, width(to)?);
            let takum = Takum::new(from, bits(word)?)?;
            written(rule(r)?, takum, value_of(takum), |rule| takum.move_to(to, rule))
        }
        ["compare", n, x, y] => compared(takum(n, x)?, takum(n, y)?),
        ["negate", n, word] => Ok(shown(-takum(n, word)?)),
        ["limit", n] => Ok(limited(width(n)?)),
        ["shortest-width", x] => shortest(number::<i64>(x, "whole number of 64 bits")?),
        ["largest", n] => Ok(shown(width(n)?.largest())),
        ["smallest", n] => Ok(shown(width(n)?.smallest())),
        ["nar", n] => Ok(shown(width(n)?.nar())),
        ["zero", n] => Ok(shown(width(n)?.zero())),
        [] => Err(Failure::Usage("nothing is asked".to_string())),
        [first, ..] => Err(Failure::Usage(format!("'{first}' is no question, or not with {} more words", given.len() - 1))),
    }
}

// What is given.

fn width(text: &str) -> Answer<Width> {
    Ok(Width::try_from(number::<usize>(text, "width")?)?)
}

fn bits(text: &str) -> Answer<u64> {
    let (digits, base) = match text.split_at_checked(2) {
        Some(("0x" | "0X", digits)) => (digits, 16),
        Some(("0b" | "0B", digits)) => (digits, 2),
        _ => (text, 10),
    };
    // a sign would be taken too
    let parsed = u64::from_str_radix(digits, base).ok().filter(|_| digits.starts_with(|first: char| first.is_digit(base)));
    let no_word = || format!("'{text}' is no word of at most 64 bits: it is digits, hex digits after 0x or binary digits after 0b, without a sign");
    parsed.ok_or_else(|| Failure::Usage(no_word()))
}

fn takum(n: &str, word: &str) -> Answer<Takum> {
    Ok(Takum::new(width(n)?, bits(word)?)?)
}

fn rule(text: &str) -> Answer<Rule> {
    choice(text, [("rounded", Rule::Rounded), ("strict", Rule::Strict)])
}

fn choice<T: Copy>(text: &str, choices: [(&str, T); 2]) -> Answer<T> {
    let chosen = choices.iter().find(|choice| choice.0 == text);
    chosen.map(|choice| choice.1).ok_or_else(|| Failure::Usage(format!("'{text}' is neither {} nor {}", choices[0].0, choices[1].0)))
}

fn number<T: std::str::FromStr>(text: &str, what: &str) -> Answer<T> {
    text.parse().map_err(|_| Failure::Usage(format!("'{text}' is no {what}")))
}

/// Exactly the value that the text says: M*2^K, or a decimal, whose digits / 10^decimals are (digits / 5^decimals) * 2^-decimals.
fn value(text: &str) -> Answer<Value> {
    let no_value = |why: &str| Failure::Usage(format!("'{text}' {why}"));
    let negative = text.starts_with('-');
    let size = text.strip_prefix(['-', '+']).unwrap_or(text);
    if let Some((m, k)) = size.split_once("*2^").filter(|(m, _)| !m.starts_with('+')) {
        return Ok(Value { negative, m: number(m, "whole number of 64 bits")?, k: number(k, "exponent of 32 bits")? });
    }
    let (whole, decimals) = size.split_once('.').unwrap_or((size, ""));
    if ["", "."].contains(&size) || !whole.bytes().chain(decimals.bytes()).all(|digit| digit.is_ascii_digit()) {
        return Err(no_value("is no number as -1.5 or 3*2^-1"));
    }
    let decimals = decimals.trim_end_matches('0');
    let Ok(digits) = format!("0{whole}{decimals}").parse::<u128>() else {
        return Err(no_value("has more digits than are read here; say it as M*2^K, or ask write-double"));
    };
    let without_fives = decimals.bytes().try_fold(digits, |m, _| (m % 5 == 0).then_some(m / 5));
    let twos = without_fives.filter(|&m| m > u64::MAX.into()).map_or(0, u128::trailing_zeros);
    let Some(m) = without_fives.and_then(|m| u64::try_from(m >> twos).ok()) else {
        return Err(no_value("is no whole number of 64 bits times a power of two; write-double takes the double next to it"));
    };
    Ok(Value { negative, m, k: twos as i32 - decimals.len() as i32 })
}

/// The value of a word that is a number. (Zero and NaR have a word at every width, so that nobody asks where they lie.)
fn value_of(takum: Takum) -> Value {
    match takum.read().kind {
        Kind::Number { negative, h, m, p } => Value { negative, m, k: h - p as i32 },
        _ => Value { negative: false, m: 0, k: 0 },
    }
}

/// The value of a double that is a number: the 52 bits of its fraction with a 1 before them, or, where its exponent is the lowest, without.
fn value_of_double(x: f64) -> Value {
    let bits = x.abs().to_bits();
    let (exponent, fraction) = ((bits >> 52) as i32, bits & ((1 << 52) - 1));
    let m = if exponent == 0 { fraction } else { fraction | 1 << 52 };
    Value { negative: x < 0.0, m, k: exponent.max(1) - 1075 }
}

// What is answered.

/// A word with its value and how fine that is.
fn read(takum: Takum) -> String {
    let own = takum.read().own;
    format!("{}\nown    {own} fraction {}", shown(takum), if own == 1 { "bit" } else { "bits" })
}

/// A word with its value.
fn shown(takum: Takum) -> String {
    let (hex, bits) = (takum.width().bits().div_ceil(4) as usize + 2, takum.width().bits() as usize);
    format!("word   {takum:#0hex$x}\nbits   {takum:0bits$b}\nvalue  {takum}{}", parts(takum))
}

/// The exact value by its parts, where it is a number.
fn parts(takum: Takum) -> String {
    match takum.read().kind {
        Kind::Number { negative, h, m, p } => format!(" = {}{m} * 2^({h} - {p})", if negative { "-" } else { "" }),
        _ => String::new(),
    }
}

fn short(takum: Takum) -> String {
    format!("{takum:#x} ({takum})")
}

/// What a writing call answers; where no word has the value that was given, also where that lies.
fn written(rule: Rule, given: impl Display, value: Value, write: impl Fn(Rule) -> Result<Written<Takum>, Refusal>) -> Answer {
    let (answer, rounded) = (write(rule), write(Rule::Rounded)?);
    if rounded.is_exact() {
        return Ok(said(answer?));
    }
    let place = format!("{given} has no word of {} bits: it lies {}", rounded.word.width(), place(value, rounded)?);
    match answer {
        Ok(written) => Ok(format!("{}\n       {place}", said(written))),
        Err(refusal) => Err(Failure::Refused(format!("{refusal}\n{place}; rounded, it is {}", short(rounded.word)))),
    }
}

/// A word that was written, and which way the value went.
fn said(written: Written<Takum>) -> String {
    format!("{}\nsaying {}", shown(written.word), written.saying)
}

fn told_first(line: &str, answer: Answer) -> Answer {
    match answer {
        Ok(answer) => Ok(format!("{line}\n{answer}")),
        Err(Failure::Refused(why)) => Err(Failure::Refused(format!("{line}\n{why}"))),
        Err(usage) => Err(usage),
    }
}

/// Where a value lies, by what was said of it: between its word and the next one on its other side, or, past the end, beside zero or beyond all words.
fn place(value: Value, rounded: Written<Takum>) -> Result<String, Refusal> {
    let word = rounded.word;
    let between = |below: Takum, above: Takum| Ok(format!("between {} and {}", short(below), short(above)));
    match rounded.saying {
        Saying::Exact => Ok(format!("at {}", short(word))),
        Saying::Below => between(word, neighbour(word, 1)?),
        Saying::Above => between(neighbour(word, -1)?, word),
        Saying::PastTheEnd if is_large(value) && value.negative => Ok(format!("below the lowest word, {}", short(word))),
        Saying::PastTheEnd if is_large(value) => Ok(format!("above the largest word, {}", short(word))),
        Saying::PastTheEnd if value.negative => between(word, word.width().zero()),
        Saying::PastTheEnd => between(word.width().zero(), word),
    }
}

/// The next word up or down: words are in the order of their values, as two's complement numbers.
fn neighbour(takum: Takum, by: i64) -> Result<Takum, Refusal> {
    let unused = 64 - takum.width().bits();
    Takum::new(takum.width(), takum.word().wrapping_add_signed(by) << unused >> unused)
}

/// Whether the size is at least 1, which has a word at every width: then it is past the largest one where it is past an end, and else short of the
/// smallest.
fn is_large(value: Value) -> bool {
    i64::from(value.k) + 63 - i64::from(value.m.leading_zeros()) >= 0
}

fn compared(x: Takum, y: Takum) -> Answer {
    let order = match x.partial_cmp(&y) {
        Some(Ordering::Less) => "is below",
        Some(Ordering::Greater) => "is above",
        _ => "equals",
    };
    Ok(format!("{} {order} {}", short(x), short(y)))
}

fn limited(width: Width) -> String {
    let limit = width.limit();
    format!("{limit}\nevery whole number from -{limit} to {limit} has a word of {width} bits, and {} has none", limit + 1)
}

fn shortest(x: i64) -> Answer {
    let no_word = |refusal| Failure::Refused(format!("{refusal}\n{x} has no word of 64 bits or fewer"));
    let width = Width::shortest(x).map_err(no_word)?;
    Ok(format!("{width}\n{x} has the word {:#x} of {width} bits, and none of fewer", Takum::try_from((width, x))?))
}
