//! The answer to a question of docs/FIGURES.md, in its line of text; written from the papers alone.

use crate::numbers::binary64::{binary64_in, binary64_out, Binary64, NAN};
use crate::numbers::shortest::shortest_width;
use crate::numbers::whole::{whole_in, whole_out_nearest, whole_out_strict};
use crate::words::reading::{read, Kind};
use crate::words::refusals::{make_width, Refusal};
use crate::words::widths::exact_count_limit;
use crate::writing::answers::{write, Answers};
use crate::writing::moving::move_word;
use crate::writing::offers::Offer;
use crate::writing::sayings::Saying;
use std::str::FromStr;

/// A question with its answer: "Each refusal is ` is refused R`, R being its number in paper 01's table."
pub fn line_of(question: &str) -> String {
    match answer_of(question) {
        Ok(answer) => format!("{question}{answer}"),
        Err(refusal) => format!("{question} is refused {}", refusal as u64),
    }
}

/// What follows the question in its line, where it is not refused. The cases are the rows of the table in
/// docs/FIGURES.md.
fn answer_of(question: &str) -> Result<String, Refusal> {
    let parts: Vec<&str> = question.split(' ').collect();
    match parts[..] {
        ["width", n, "word", w] => Ok(format!(" is {}", value_text(read(decimal(n), hex(w))?.kind))),
        ["width", n, "word", w, "own", "bits"] => Ok(format!(" {}", read(decimal(n), hex(w))?.own_fraction_bits)),
        ["width", n] => Err(make_width(decimal(n)).expect_err("none is asked of a good width")),
        ["width", n, "limit"] => Ok(format!(" {}", exact_count_limit(decimal(n))?)),
        ["width", n, "writing", m, "*", power, rule] => word_by_rule(write(decimal(n), &offer(m, power)), rule),
        ["width", n, "moving", w, "to", "width", b, rule] => {
            word_by_rule(move_word(decimal(n), decimal(b), hex(w)), rule)
        }
        ["width", n, "whole", "number", x, rule] => word_by_rule(whole_in(decimal(n), decimal(x)), rule),
        ["width", n, "word", w, "nearest"] => Ok(format!(" is {}", whole_out_nearest(decimal(n), hex(w))?)),
        ["width", n, "word", w, "strict"] => Ok(format!(" is {}", whole_out_strict(decimal(n), hex(w))?)),
        ["width", n, "binary64", "nan", rule] => word_by_rule(binary64_in(decimal(n), NAN), rule),
        ["width", n, "binary64", bits, rule] => word_by_rule(binary64_in(decimal(n), hex(bits)), rule),
        ["width", n, "word", w, "as", "binary64"] => Ok(match binary64_out(decimal(n), hex(w))? {
            Binary64::Number(bits) => format!(" is {bits:x}"),
            Binary64::NoReading => " is no reading".to_string(),
        }),
        ["whole", "number", x] => Ok(format!(" needs width {}", shortest_width(decimal(x))?)),
        _ => panic!("no question has this form: {question}"),
    }
}

/// "` gives ` and the word with its saying", by the rule named: "the word, a comma, a space, and" the saying.
fn word_by_rule(answers: Answers, rule: &str) -> Result<String, Refusal> {
    let answer = match rule {
        "rounded" => answers.rounded?,
        "strict" => answers.strict?,
        _ => panic!("not a rule: {rule}"),
    };
    Ok(format!(" gives {:x}, {}", answer.word, saying_text(answer.saying)))
}

fn saying_text(saying: Saying) -> &'static str {
    match saying {
        Saying::Exact => "exact",
        Saying::Below => "below",
        Saying::Above => "above",
        Saying::PastTheEnd => "past the end",
    }
}

/// "A value is said as `M * 2^K` with M odd and its sign before it, `nar` if it is NaR and `0` if it is zero." No sign
/// is plus, as in the questions.
fn value_text(kind: Kind) -> String {
    match kind {
        Kind::Zero => "0".to_string(),
        Kind::NaR => "nar".to_string(),
        Kind::Number { minus, h, m, p } => {
            // The size is m * 2^(h-p). Every 2 that divides m goes over into the power.
            let twos = m.trailing_zeros();
            let sign = if minus { "-" } else { "" };
            format!("{sign}{} * 2^{}", m >> twos, h - p + i64::from(twos))
        }
    }
}

/// The value offered in a question: M with its sign, and 2^K. Zero is offered as `0 * 2^0`, with either sign.
fn offer(m: &str, power: &str) -> Offer {
    let (minus, m) = match m.strip_prefix('-') {
        Some(m) => (true, decimal(m)),
        None => (false, decimal(m)),
    };
    let k = decimal(power.strip_prefix("2^").expect("a power of two is said as 2^K"));
    assert!(m % 2 == 1 || (m == 0 && k == 0), "a value is said with M odd");
    Offer { minus, m, k }
}

fn decimal<T: FromStr + ToString>(text: &str) -> T {
    let number = text.parse().ok().expect("a question has numbers that its call takes");
    assert!(T::to_string(&number) == text, "a number is said in one way: {text}");
    number
}

/// "Lower-case hex without leading zeros."
fn hex(text: &str) -> u64 {
    let number = u64::from_str_radix(text, 16).expect("a word or the bits of a binary64 number");
    assert!(format!("{number:x}") == text, "a word is said in one way: {text}");
    number
}
