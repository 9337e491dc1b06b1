// The figure of docs/moving.svg and the table of docs/MOVING.md, from the library's own answers: what becomes of 513 + 2^-20 from width to width.
mod drawing;

use drawing::{begin, bold, end, text};
use ledusprig::{Kind, Refusal, Rule, Taking, Takum, Value, Width, Written};
use std::cmp::Ordering;

const BENCH: Width = Width::W32;
const TAG: Width = Width::W16;
const TITLE: &str = "Three ways of 513 + 2^-20 from 64 bits to 16";

// Places on the page: a row for each width, and in it the words by their value, but for 513 + 2^-20, which would stand over 513.
const ROWS: [(Width, f64); 3] = [(Width::W64, 116.0), (BENCH, 246.0), (TAG, 376.0)];
const LEFT: f64 = 90.0;
const ON_512: f64 = 214.0;
const ON_513: f64 = 479.0; // midway
const JUST_ABOVE: f64 = 500.0;
const ON_514: f64 = 744.0;
const BOX: (f64, f64) = (164.0, 48.0);

fn main() -> Result<(), Refusal> {
    if std::env::args().nth(1).as_deref() == Some("table") {
        print_table()
    } else {
        draw()
    }
}

// ---- the words
// 513 + 2^-20, and 513 itself, at 64 bits
fn a_little_more() -> Result<Takum, Refusal> {
    Ok(Width::W64.write(Rule::Strict, Value { negative: false, m: (513 << 20) + 1, k: -20 })?.word)
}

fn plain_513() -> Result<Takum, Refusal> {
    Takum::try_from((Width::W64, 513_i64))
}

// The words that a word becomes by rounded moves, and what is said of each.
fn way(first: Takum, widths: &[Width]) -> Result<Vec<Written<Takum>>, Refusal> {
    let mut here = first;
    let mut steps = Vec::new();
    for &width in widths {
        let step = here.move_to(width, Rule::Rounded)?;
        here = step.word;
        steps.push(step);
    }
    Ok(steps)
}

// Its value: NaR, a whole number, or one and a power of two, as 513 + 2^-20 is.
fn value(word: Takum) -> Result<String, Refusal> {
    if word.is_nar() {
        return Ok("NaR".to_string());
    }
    if let (Err(_), Kind::Number { negative, h, m, p }) = (word.take_whole(Taking::Strict), word.read().kind) {
        let below = p as i32 - h; // so many bits stand after the point
        let rest = m & ((1 << below) - 1);
        assert!(rest.is_power_of_two(), "{m} * 2^-{below} is no such value");
        let size = format!("{} + 2^{}", m >> below, rest.trailing_zeros() as i32 - below);
        return Ok(if negative { format!("-({size})") } else { size });
    }
    Ok(word.take_whole(Taking::Strict)?.to_string())
}

fn hex(word: Takum) -> String {
    format!("{:0digits$x}", word.word(), digits = word.width().bits() as usize / 4)
}

// ---- the figure
fn draw() -> Result<(), Refusal> {
    let first = a_little_more()?;
    let direct = way(first, &[TAG, BENCH, TAG])?;
    let by_the_bench = way(first, &[BENCH, TAG])?;
    begin("moving", 560.0, TITLE, &description(first, &direct, &by_the_bench)?);
    println!("<defs><marker id=\"head\" viewBox=\"0 0 10 10\" refX=\"9\" refY=\"5\" markerWidth=\"9\" markerHeight=\"9\" markerUnits=\"userSpaceOnUse\" orient=\"auto\"><path d=\"M0 0L10 5L0 10z\"/></marker></defs>");
    text(LEFT, 28.0, "start", 19, TITLE);
    text(LEFT, 50.0, "start", 13, "Each box is a word, with its value and its bits in hex, and each arrow a rounded move, with what it says.");
    text(LEFT, 68.0, "start", 13, "At 16 bits only the even numbers have a word here: 513 is midway between 512 and 514.");
    for (width, row) in ROWS {
        text(LEFT - 4.0, row + 5.0, "end", 15, &format!("{width} bits"));
        println!("<line x1=\"{}\" y1=\"{row}\" x2=\"870\" y2=\"{row}\" stroke=\"black\" stroke-dasharray=\"1 5\"/>", LEFT + 8.0);
    }
    // where a box of the upper row ends, and where one of the lower row begins
    let below = |row: usize| ROWS[row].1 + BOX.1 / 2.0;
    let above = |row: usize| ROWS[row].1 - BOX.1 / 2.0;
    arrow("direct", 3.0, "", (JUST_ABOVE + 40.0, below(0)), (ON_514 - 34.0, above(2)));
    arrow("by way of 32", 1.5, "7 5", (ON_513, below(0)), (ON_513, above(1)));
    arrow("by way of 32", 1.5, "7 5", (ON_513 - 20.0, below(1)), (ON_512, above(2)));
    arrow("out", 1.2, "", (ON_514 + 26.0, above(2)), (ON_514 + 26.0, below(1)));
    arrow("back", 1.2, "", (ON_514 + 56.0, below(1)), (ON_514 + 56.0, above(2)));
    put_word(JUST_ABOVE, 0, first)?;
    put_word(ON_513, 1, by_the_bench[0].word)?;
    put_word(ON_514, 1, direct[1].word)?;
    put_word(ON_512, 2, by_the_bench[1].word)?;
    put_word(ON_514, 2, direct[2].word)?;
    text(ON_513 - 10.0, 190.0, "end", 13, &by_the_bench[0].saying.to_string());
    text(330.0, 306.0, "end", 13, &format!("a tie, to the word whose last bit is 0: {}", by_the_bench[1].saying));
    text(600.0, 190.0, "start", 13, &format!("direct: {}", direct[0].saying));
    text(ON_514 + 18.0, 306.0, "end", 13, &format!("out: {}", direct[1].saying));
    text(ON_514 + 64.0, 306.0, "start", 13, &format!("back: {}", direct[2].saying));
    for (line, said) in told(&direct, &by_the_bench)?.iter().enumerate() {
        text(LEFT, 446.0 + 22.0 * line as f64, "start", 14, said);
    }
    end();
    Ok(())
}

// The three ways in words.
fn told(direct: &[Written<Takum>], by_the_bench: &[Written<Takum>]) -> Result<[String; 4], Refusal> {
    Ok([
        format!("Thick: directly it is {}. Move so.", value(direct[0].word)?),
        format!("Dashed: by way of {BENCH} bits it is {}, and then {}: rounded twice, and not the nearest word.", value(by_the_bench[0].word)?, value(by_the_bench[1].word)?),
        format!("Thin: on from {TAG} bits to {BENCH} and back it is {} again, as after the first move alone.", value(direct[2].word)?),
        "Across, a box stands where its value is, but for 513 + 2^-20, which at this scale would stand over 513.".to_string(),
    ])
}

fn description(first: Takum, direct: &[Written<Takum>], by_the_bench: &[Written<Takum>]) -> Result<String, Refusal> {
    let mut said = format!("{} is the word {} of 64 bits.", value(first)?, hex(first));
    for (name, steps) in [("Directly", &direct[..1]), ("By way of 32 bits", by_the_bench), ("To 16 bits, on to 32 and back", direct)] {
        said += &format!(" {name}:");
        for step in steps {
            said += &format!(" {}, the word {} of {} bits, {};", value(step.word)?, hex(step.word), step.word.width(), step.saying);
        }
        said.pop();
        said.push('.');
    }
    Ok(said)
}

fn arrow(name: &str, thick: f64, dashes: &str, from: (f64, f64), to: (f64, f64)) {
    println!(
        "<line x1=\"{:.2}\" y1=\"{:.2}\" x2=\"{:.2}\" y2=\"{:.2}\" stroke=\"black\" stroke-width=\"{thick}\" stroke-dasharray=\"{}\" marker-end=\"url(#head)\"><title>{name}</title></line>",
        from.0,
        from.1,
        to.0,
        to.1,
        if dashes.is_empty() { "none" } else { dashes },
    );
}

fn put_word(x: f64, row: usize, word: Takum) -> Result<(), Refusal> {
    let y = ROWS[row].1;
    println!("<rect x=\"{:.2}\" y=\"{:.2}\" width=\"{}\" height=\"{}\" fill=\"white\" stroke=\"black\"/>", x - BOX.0 / 2.0, y - BOX.1 / 2.0, BOX.0, BOX.1);
    bold(x, y - 3.0, &value(word)?);
    text(x, y + 15.0, "middle", 12, &hex(word));
    Ok(())
}

// ---- the table: an example of each law, in which ways stand side by side with a stroke between them
fn print_table() -> Result<(), Refusal> {
    let (first, plain) = (a_little_more()?, plain_513()?);
    let tally = Takum::try_from((BENCH, 515_i64))?;
    println!("| law | bits | what becomes of the words |");
    println!("|---|---|---|");
    print_ways("1, out and back", &[(first, &[TAG, BENCH, TAG])])?;
    print_ways("2, a word and its negation", &[(first, &[BENCH]), (-first, &[BENCH])])?;
    print_ways("2, a word and its negation", &[(first, &[TAG]), (-first, &[TAG])])?;
    let (zero, nar) = (Width::W64.zero(), Width::W64.nar());
    print_ways("2, the negations of zero and NaR", &[(-zero, &[TAG]), (-nar, &[TAG])])?;
    print_orders("3, the order of two words", plain, first)?;
    print_ways("4, directly and by way of 32", &[(first, &[TAG]), (first, &[BENCH, TAG])])?;
    print_ways("5, the same of 513, exact at 32", &[(plain, &[TAG]), (plain, &[BENCH, TAG])])?;
    print_ways("6, directly and by way of 64", &[(tally, &[TAG]), (tally, &[Width::W64, TAG])])?;
    let (bench, tag) = (moved(first, BENCH)?, moved(first, TAG)?);
    print_ways("7, to the same width", &[(first, &[Width::W64]), (bench, &[BENCH]), (tag, &[TAG])])
}

fn print_ways(law: &str, ways: &[(Takum, &[Width])]) -> Result<(), Refusal> {
    let (mut bits, mut said) = (Vec::new(), Vec::new());
    for (first, widths) in ways {
        bits.push(std::iter::once(&first.width()).chain(*widths).map(Width::to_string).collect::<Vec<String>>().join(", "));
        said.push(steps(*first, widths)?);
    }
    println!("| {law} | {} | {} |", bits.join(" / "), said.join(" / "));
    Ok(())
}

fn steps(first: Takum, widths: &[Width]) -> Result<String, Refusal> {
    let mut said = shown(first)?;
    for step in way(first, widths)? {
        said += &format!("; {}, {}", shown(step.word)?, step.saying);
    }
    Ok(said)
}

fn print_orders(law: &str, x: Takum, y: Takum) -> Result<(), Refusal> {
    let widths = [Width::W64, BENCH, TAG];
    let orders = widths.map(|width| order(moved(x, width)?, moved(y, width)?)).into_iter().collect::<Result<Vec<String>, Refusal>>()?;
    println!("| {law} | {} | {} |", widths.map(|width| width.to_string()).join(" / "), orders.join(" / "));
    Ok(())
}

fn order(x: Takum, y: Takum) -> Result<String, Refusal> {
    let is = match x.partial_cmp(&y) {
        Some(Ordering::Less) => "is less than",
        Some(Ordering::Equal) => "equals",
        Some(Ordering::Greater) => "is greater than",
        None => "has no order with",
    };
    Ok(format!("{} {is} {}", shown(x)?, shown(y)?))
}

fn moved(word: Takum, to: Width) -> Result<Takum, Refusal> {
    Ok(word.move_to(to, Rule::Rounded)?.word)
}

fn shown(word: Takum) -> Result<String, Refusal> {
    Ok(format!("{} `{}`", value(word)?, hex(word)))
}
