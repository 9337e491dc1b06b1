// The figure of docs/tallies.svg, drawn from the library's own answers: which whole numbers up to 4,096 have a word, and what 515 does.
mod drawing;

use drawing::{begin, bold, end, text};
use ledusprig::{Refusal, Rule, Taking, Takum, Width};

const WIDTHS: [u32; 4] = [8, 12, 16, 32];
const DOUBLINGS: usize = 12; // 4,096 is 2^12
const TALLY: i64 = 515;
const TAG: Width = Width::W16; // the width that the tally was written at
const STRIP: std::ops::RangeInclusive<i64> = 508..=524;
const TITLE: &str = "Which whole numbers have a word?";

// Places on the page.
const LEFT: f64 = 90.0;
const STEP: f64 = 66.0; // the width of a doubling
const ROW: f64 = 74.0; // from one width to the next, above
const BAR: f64 = 44.0; // the height of a bar where every number has a word
const TOP: f64 = 130.0;
const SCALE: f64 = TOP + 4.0 * ROW - 26.0;
const CELL: f64 = 33.0; // from one number's square to the next, below
const SIDE: f64 = 25.0; // the side of a square
const BELOW: f64 = 540.0;
const END: f64 = BELOW + 4.0 * CELL;

fn main() -> Result<(), Refusal> {
    begin("tallies", END + 66.0, TITLE, &description()?);
    draw_shares_of_all()?;
    draw_strips()?;
    end();
    Ok(())
}

// What the figure shows, for who can't see it.
fn description() -> Result<String, Refusal> {
    let mut said = String::from("Up to its limit a width has a word for every whole number; above it, for ever fewer.");
    for bits in WIDTHS {
        let width = Width::new(bits)?;
        said += &format!(" {bits} bits: {}; {}.", limit(width), fate(width)?);
    }
    let [halfway, even] = why()?;
    Ok(format!("{said} {halfway} {even}"))
}

fn has_word(width: Width, x: i64) -> bool {
    width.write_whole(Rule::Strict, x).is_ok()
}

// The limit by its name; one that is not on the scale, as a power of two.
fn limit(width: Width) -> String {
    match width.limit() {
        limit if limit >> DOUBLINGS == 0 => format!("limit {limit}"),
        limit => format!("limit 2^{}", limit.ilog2()),
    }
}

// The upper part: the shares at each width, the scale, and the tally's place on it.
fn draw_shares_of_all() -> Result<(), Refusal> {
    text(LEFT, 28.0, "start", 19, TITLE);
    text(LEFT, 50.0, "start", 13, "A bar's height is the share of the whole numbers there that have one; 0 and 1 have one at every width.");
    text(LEFT, 68.0, "start", 13, "Up to a width's limit every whole number has one, and the next number has none.");
    for (row, bits) in WIDTHS.into_iter().enumerate() {
        draw_shares(Width::new(bits)?, TOP + row as f64 * ROW)?;
    }
    draw_scale();
    draw_tally();
    Ok(())
}

// For each doubling the share of its numbers that have a word, as a bar.
fn draw_shares(width: Width, top: f64) -> Result<(), Refusal> {
    text(LEFT - 12.0, top + BAR / 2.0, "end", 15, &format!("{width} bits"));
    text(LEFT - 12.0, top + BAR - 2.0, "end", 12, &limit(width));
    for doubling in 0..DOUBLINGS {
        let numbers = (1_i64 << doubling) + 1..=2 << doubling;
        let all = numbers.clone().count();
        let found = numbers.filter(|&x| has_word(width, x)).count();
        let high = BAR * found as f64 / all as f64;
        let x = LEFT + doubling as f64 * STEP;
        println!("<rect x=\"{x}\" y=\"{:.2}\" width=\"{}\" height=\"{high:.2}\" fill=\"black\"/>", top + BAR - high, STEP - 2.0);
        text(x + STEP / 2.0, top - 5.0, "middle", 12, &share(found, all));
    }
    Ok(())
}

fn share(found: usize, all: usize) -> String {
    if found == all {
        return "all".to_string();
    }
    format!("1 in {}", all / found)
}

// The numbers at the ends of the doublings, and what they are.
fn draw_scale() {
    for doubling in 0..=DOUBLINGS {
        let x = LEFT + doubling as f64 * STEP - 1.0;
        println!("<line x1=\"{x}\" y1=\"{SCALE}\" x2=\"{x}\" y2=\"{}\" stroke=\"black\"/>", SCALE + 8.0);
        text(x, SCALE + 22.0, "middle", 13, &(1_i64 << doubling).to_string());
    }
    text(LEFT + DOUBLINGS as f64 * STEP / 2.0, SCALE + 42.0, "middle", 13, "whole numbers, doubling from mark to mark");
}

// The tally's place: a line through all widths, white at its sides so that it is seen before a black bar too. It is so close to a number of the
// scale that it is said where it lies.
fn draw_tally() {
    let (x, top, bottom) = (LEFT - 1.0 + (TALLY as f64).log2() * STEP, TOP - 28.0, SCALE - 4.0);
    let line = |width: f64, colour: &str| {
        println!("<line x1=\"{x:.2}\" y1=\"{top}\" x2=\"{x:.2}\" y2=\"{bottom}\" stroke=\"{colour}\" stroke-width=\"{width}\"/>");
    };
    line(6.0, "white");
    line(2.0, "black");
    bold(x, top - 4.0, &TALLY.to_string());
    let doubling = TALLY.ilog2();
    text(x + 18.0, top - 4.0, "start", 13, &format!("lies between {} and {}", 1 << doubling, 2 << doubling));
}

// The lower part: the numbers next to the tally at each width, what becomes of it, and why.
fn draw_strips() -> Result<(), Refusal> {
    text(LEFT, BELOW - 52.0, "start", 19, &format!("Close to {TALLY}: a black square has a word, a white one has none"));
    for (place, x) in STRIP.enumerate() {
        let put = |words: &str| text(middle(place), BELOW - 10.0, "middle", 12, words);
        if x == TALLY { bold(middle(place), BELOW - 10.0, &x.to_string()) } else { put(&x.to_string()) }
    }
    for (row, bits) in WIDTHS.into_iter().enumerate() {
        draw_strip(Width::new(bits)?, BELOW + row as f64 * CELL)?;
    }
    for (line, words) in why()?.iter().enumerate() {
        text(LEFT, END + 26.0 + 20.0 * line as f64, "start", 13, words);
    }
    Ok(())
}

fn middle(place: usize) -> f64 {
    LEFT + (place as f64 + 0.5) * CELL
}

fn middle_of(x: i64) -> f64 {
    middle((x - STRIP.start()) as usize)
}

fn draw_strip(width: Width, y: f64) -> Result<(), Refusal> {
    text(LEFT - 12.0, y + CELL / 2.0 + 5.0, "end", 15, &format!("{width} bits"));
    for x in STRIP {
        let fill = if has_word(width, x) { "black" } else { "white" };
        let left = middle_of(x) - SIDE / 2.0;
        println!("<rect x=\"{left}\" y=\"{}\" width=\"{SIDE}\" height=\"{SIDE}\" fill=\"{fill}\" stroke=\"black\"/>", y + 4.0);
    }
    if width == TAG {
        draw_arrow(y + 4.0 + SIDE / 2.0)?;
    }
    text(middle_of(STRIP.end() + 1), y + CELL / 2.0 + 5.0, "start", 13, &fate(width)?);
    Ok(())
}

// From the tally's square to the side of the next one, that of the number that it becomes.
fn draw_arrow(y: f64) -> Result<(), Refusal> {
    let (from, to) = (middle_of(TALLY) - SIDE / 2.0 + 3.0, middle_of(written(TAG)?) - SIDE / 2.0 - 1.0);
    let (head, half) = (12.0, 7.5);
    println!("<g id=\"arrow\">");
    println!("<path d=\"M{from} {y}H{}\" stroke=\"black\" stroke-width=\"4\"/>", to - head);
    println!("<path d=\"M{to} {y}L{} {}V{}Z\"/></g>", to - head, y - half, y + half);
    Ok(())
}

// The whole number that the tally is rounded to.
fn written(width: Width) -> Result<i64, Refusal> {
    width.write_whole(Rule::Rounded, TALLY)?.word.take_whole(Taking::Strict)
}

fn fate(width: Width) -> Result<String, Refusal> {
    if has_word(width, TALLY) {
        return Ok(format!("{TALLY} is kept"));
    }
    Ok(format!("{TALLY} becomes {}; strict: refused", written(width)?))
}

// Why the tally goes to the one side: the number that is as far away on the other has the next word, and that is odd.
fn why() -> Result<[String; 2], Refusal> {
    let taken = written(TAG)?;
    let (taken, left) = (Takum::try_from((TAG, taken))?, Takum::try_from((TAG, 2 * TALLY - taken))?);
    assert!(taken.word().abs_diff(left.word()) == 1, "there is a word between {left:?} and {taken:?}");
    let named = |takum: Takum| format!("{takum} (word {takum:#x}, {})", if takum.word() % 2 == 0 { "even" } else { "odd" });
    let way = if taken > left { "up" } else { "down" };
    let (below, above) = if taken > left { (left, taken) } else { (taken, left) };
    Ok([
        format!("Why it goes {way} at {TAG} bits: {TALLY} is halfway between {} and {}.", named(below), named(above)),
        format!("Of two words that are equally near the even one is written, and that is the word of {taken}."),
    ])
}
