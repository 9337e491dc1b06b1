// The figure of docs/tags.svg and the table of docs/TAGS.md, from the library's own answers: how wide a tag the tallies from 1 to 4,096 need.
mod drawing;

use drawing::{begin, bold, end, text};
use ledusprig::{Refusal, Width};

const TALLIES: std::ops::RangeInclusive<i64> = 1..=4096;
const SHOWN: [u32; 5] = [8, 10, 12, 14, 16]; // the widths of tags; after them comes the least that has a word for every tally
const TAG: Width = Width::W16; // what has a word here is white in the strip
const STRIP: std::ops::RangeInclusive<i64> = 508..=524;
const TITLE: &str = "How wide a tag does a tally need?";

// Places on the page.
const LEFT: f64 = 90.0;
const ROW: f64 = 40.0; // from one width to the next
const BAR: f64 = 22.0;
const LONG: f64 = 512.0; // the bar of all tallies: eight of them to a unit
const TOP: f64 = 92.0;
const CELL: f64 = 46.0; // from one number's square to the next, below
const SIDE: f64 = 34.0;

fn main() -> Result<(), Refusal> {
    if std::env::args().nth(1).as_deref() == Some("table") {
        print_table()
    } else {
        draw()
    }
}

// The widths of tags, and the least at which every tally has a word.
fn widths() -> Result<Vec<Width>, Refusal> {
    let mut widths = SHOWN.map(Width::new).into_iter().collect::<Result<Vec<Width>, Refusal>>()?;
    widths.push(widest()?);
    Ok(widths)
}

fn widest() -> Result<Width, Refusal> {
    TALLIES.map(Width::shortest).try_fold(Width::LEAST, |widest, needed| Ok(widest.max(needed?)))
}

// How many tallies have a word of that width: those that need no more.
fn fitting(width: Width) -> usize {
    TALLIES.filter(|&x| fits(width, x)).count()
}

fn fits(width: Width, x: i64) -> bool {
    Width::shortest(x).is_ok_and(|needed| needed <= width)
}

// The first tally that a width has no word for. There may be none.
fn first_left_out(width: Width) -> Option<i64> {
    TALLIES.into_iter().find(|&x| !fits(width, x))
}

// Up to where every tally has a word, and where the first has none.
fn reach(width: Width) -> String {
    match first_left_out(width) {
        Some(x) => format!("each up to {}; {} is the first without", grouped(x as usize - 1), grouped(x as usize)),
        None => "no narrower width has one for each".to_string(),
    }
}

// A number with commas between its thousands.
fn grouped(number: usize) -> String {
    match number / 1000 {
        0 => number.to_string(),
        thousands => format!("{},{:03}", grouped(thousands), number % 1000),
    }
}

fn share(width: Width) -> String {
    let (found, all) = (fitting(width), TALLIES.count());
    if found == all {
        return format!("all {} have a word", grouped(all));
    }
    format!("{} of {} have a word", grouped(found), grouped(all))
}

fn draw() -> Result<(), Refusal> {
    let widths = widths()?;
    let below = TOP + ROW * widths.len() as f64 + 84.0;
    begin("tags", below + SIDE + 72.0, TITLE, &description(&widths)?);
    text(LEFT, 28.0, "start", 19, TITLE);
    text(LEFT, 50.0, "start", 13, "A frame is all tallies from 1 to 4,096, and what is black of it those that have a word of that width.");
    text(LEFT, 68.0, "start", 13, "By the strict rule the others are refused there, and need a wider tag.");
    for (row, &width) in widths.iter().enumerate() {
        draw_bar(width, TOP + row as f64 * ROW);
    }
    draw_strip(below)?;
    end();
    Ok(())
}

fn description(widths: &[Width]) -> Result<String, Refusal> {
    let mut said = String::from("Of the tallies from 1 to 4,096.");
    for &width in widths {
        said += &format!(" {width} bits: {}, {}.", share(width), reach(width));
    }
    for x in STRIP {
        said += &format!(" {x} needs {}.", Width::shortest(x)?);
    }
    Ok(said)
}

fn draw_bar(width: Width, top: f64) {
    text(LEFT - 12.0, top + BAR / 2.0 + 5.0, "end", 15, &format!("{width} bits"));
    let long = LONG * fitting(width) as f64 / TALLIES.count() as f64;
    println!("<rect x=\"{LEFT}\" y=\"{top}\" width=\"{long:.2}\" height=\"{BAR}\" fill=\"black\"/>");
    println!("<rect x=\"{LEFT}\" y=\"{top}\" width=\"{LONG}\" height=\"{BAR}\" fill=\"none\" stroke=\"black\"/>");
    text(LEFT + LONG + 12.0, top + 9.0, "start", 13, &share(width));
    text(LEFT + LONG + 12.0, top + 24.0, "start", 12, &reach(width));
}

// Some tallies in a row, each with the bits that it needs in its square.
fn draw_strip(top: f64) -> Result<(), Refusal> {
    text(LEFT, top - 44.0, "start", 19, &format!("The fewest bits for some of them; in black, what a tag of {TAG} bits has no word for"));
    for (place, x) in STRIP.enumerate() {
        let (middle, needed) = (LEFT + (place as f64 + 0.5) * CELL, Width::shortest(x)?);
        let (square, digits) = if fits(TAG, x) { ("white", "black") } else { ("black", "white") };
        text(middle, top - 8.0, "middle", 12, &x.to_string());
        println!("<rect x=\"{}\" y=\"{top}\" width=\"{SIDE}\" height=\"{SIDE}\" fill=\"{square}\" stroke=\"black\"/>", middle - SIDE / 2.0);
        println!("<g fill=\"{digits}\">");
        bold(middle, top + SIDE / 2.0 + 5.0, &needed.to_string());
        println!("</g>");
    }
    text(LEFT, top + SIDE + 26.0, "start", 13, "Of numbers that have the same length in binary, the one that ends in more zeros needs fewer bits,");
    text(LEFT, top + SIDE + 46.0, "start", 13, "and a power of two, as 512, needs fewest. The negation of a number needs as many as the number.");
    Ok(())
}

// Every width from the least up to the one that has a word for every tally.
fn print_table() -> Result<(), Refusal> {
    println!("| bits | tallies from 1 to 4,096 that have a word | that need exactly so many bits | every tally has a word up to | the first that has none |");
    println!("|---|---|---|---|---|");
    let mut narrower = 0;
    for bits in Width::LEAST.bits()..=widest()?.bits() {
        let width = Width::new(bits)?;
        let fitting = fitting(width);
        let (last, first) = match first_left_out(width) {
            Some(x) => (grouped(x as usize - 1), grouped(x as usize)),
            None => ("4,096".to_string(), "-".to_string()),
        };
        println!("| {bits} | {} | {} | {last} | {first} |", grouped(fitting), grouped(fitting - narrower));
        narrower = fitting;
    }
    Ok(())
}
