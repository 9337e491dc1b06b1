//! One pseudo-random case: the call, what it is given, and what the independent program answers.
use crate::answers::{binary64, reading, sign, text, word, word_said};
use crate::choices::Choices;
use crate::lent::{column, sheet_block};
use crate::numbers::binary64::{binary64_in, binary64_out};
use crate::numbers::shortest::shortest_width;
use crate::numbers::whole::{whole_in, whole_out_nearest, whole_out_strict};
use crate::words::reading::{compare, negate, read};
use crate::words::widths::{exact_count_limit, largest_word, nar_word, smallest_word};
use crate::writing::answers::{write, Answers};
use crate::writing::moving::move_word;
use crate::written::block_to_write;

pub fn case(choices: &mut Choices) -> String {
    match choices.below(70) {
        0..=3 => of_width(choices),
        4..=8 => of_reading(choices),
        9..=12 => of_comparing(choices),
        13..=15 => of_negating(choices),
        16..=24 => of_writing(choices),
        25..=33 => of_moving(choices),
        34..=39 => of_whole_in(choices),
        40..=45 => of_whole_out(choices),
        46..=51 => of_binary64_in(choices),
        52..=56 => of_binary64_out(choices),
        57..=62 => column(choices),
        63 => sheet_block(choices),
        64 | 65 => block_to_write(choices),
        _ => of_shortest_width(choices),
    }
}

/// The rule's name, and the answer by it.
fn by_rule(choices: &mut Choices, answers: Answers) -> (&'static str, String) {
    if choices.once_in(2) {
        ("strict", word_said(answers.strict))
    } else {
        ("rounded", word_said(answers.rounded))
    }
}

fn of_width(choices: &mut Choices) -> String {
    let n = choices.width();
    match choices.below(4) {
        0 => format!("largest {n} = {}", word(largest_word(n))),
        1 => format!("smallest {n} = {}", word(smallest_word(n))),
        2 => format!("nar {n} = {}", word(nar_word(n))),
        _ => format!("limit {n} = {}", text(exact_count_limit(n), |limit| format!("limit {limit}"))),
    }
}

fn of_reading(choices: &mut Choices) -> String {
    let n = choices.width();
    let x = choices.word(n);
    format!("read {n} {x:#x} = {}", reading(read(n, x)))
}

fn of_comparing(choices: &mut Choices) -> String {
    let n = choices.width();
    let x = choices.word(n);
    let y = if choices.once_in(8) { x } else { choices.word(n) };
    format!("compare {n} {x:#x} {y:#x} = {}", text(compare(n, x, y), |order| format!("order {order}")))
}

fn of_negating(choices: &mut Choices) -> String {
    let n = choices.width();
    let x = choices.word(n);
    format!("negate {n} {x:#x} = {}", word(negate(n, x)))
}

fn of_writing(choices: &mut Choices) -> String {
    let n = choices.width();
    let offer = choices.offer(n);
    let (rule, answer) = by_rule(choices, write(n, &offer));
    format!("write {n} {rule} {} {} {} = {answer}", sign(offer.minus), offer.m, offer.k)
}

fn of_moving(choices: &mut Choices) -> String {
    let (from, to) = (choices.width(), choices.width());
    let x = if choices.once_in(2) { choices.edge_to_move(from, to) } else { choices.word(from) };
    let (rule, answer) = by_rule(choices, move_word(from, to, x));
    format!("move {from} {to} {rule} {x:#x} = {answer}")
}

fn of_whole_in(choices: &mut Choices) -> String {
    let n = choices.width();
    let (n, whole) = match choices.below(6) {
        0 => choices.whole_at_end(),
        1 => (n, choices.whole_halfway(n)),
        _ => (n, choices.whole()),
    };
    let (rule, answer) = by_rule(choices, whole_in(n, whole));
    format!("write_whole {n} {rule} {whole} = {answer}")
}

fn of_whole_out(choices: &mut Choices) -> String {
    let n = choices.width();
    let x = if choices.once_in(3) { choices.half(n) } else { choices.word(n) };
    let (rule, answer) = if choices.once_in(2) { ("strict", whole_out_strict(n, x)) } else { ("nearest", whole_out_nearest(n, x)) };
    format!("take_whole {n} {rule} {x:#x} = {}", text(answer, |whole| format!("whole {whole}")))
}

fn of_binary64_in(choices: &mut Choices) -> String {
    let n = choices.width();
    let pattern = choices.pattern(n);
    let (rule, answer) = by_rule(choices, binary64_in(n, pattern));
    format!("write_binary64 {n} {rule} {pattern:#x} = {answer}")
}

fn of_binary64_out(choices: &mut Choices) -> String {
    let n = choices.width();
    let x = choices.word(n);
    format!("take_binary64 {n} {x:#x} = {}", binary64(binary64_out(n, x)))
}

fn of_shortest_width(choices: &mut Choices) -> String {
    let whole = choices.whole_to_fit();
    format!("shortest_width {whole} = {}", text(shortest_width(whole), |width| format!("width {width}")))
}
