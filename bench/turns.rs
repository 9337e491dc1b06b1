// Times two programs on one input, in turn: `turns INPUT ROUNDS PROGRAM [WORD..] -- PROGRAM [WORD..]`, the library's first.
// Both must print the same bytes. What is timed is the processor time, user and system, of each program; its text is thrown away.
use std::fs::File;
use std::process::{exit, Command, Stdio};

#[repr(C)]
struct Usage {
    user: [i64; 2],
    system: [i64; 2],
    others: [i64; 14],
}

// Linux's C library, on 64-bit machines.
extern "C" {
    fn getrusage(whose: i32, usage: *mut Usage) -> i32;
}

const CHILDREN: i32 = -1;

// Seconds that all programs which have ended have run.
fn seconds_run() -> f64 {
    let mut usage = Usage { user: [0; 2], system: [0; 2], others: [0; 14] };
    if unsafe { getrusage(CHILDREN, &mut usage) } != 0 {
        fail("this system does not tell how long a program ran");
    }
    (usage.user[0] + usage.system[0]) as f64 + (usage.user[1] + usage.system[1]) as f64 / 1e6
}

fn fail(why: &str) -> ! {
    eprintln!("turns: {}", why);
    exit(1);
}

fn command(words: &[String], input: &str) -> Command {
    let mut command = Command::new(&words[0]);
    command.args(&words[1..]).stdin(File::open(input).unwrap());
    command
}

fn text_of(words: &[String], input: &str) -> Vec<u8> {
    let output = command(words, input).stderr(Stdio::inherit()).output().unwrap();
    if !output.status.success() {
        fail("a program failed");
    }
    output.stdout
}

fn main() {
    let words: Vec<String> = std::env::args().skip(1).collect();
    let (input, rounds) = (&words[0], words[1].parse().unwrap());
    let sides: Vec<&[String]> = words[2..].split(|word| word == "--").collect();
    let text = text_of(sides[0], input);
    if text != text_of(sides[1], input) {
        fail("the two programs print different bytes; nothing is timed");
    }
    let mut times = [vec![], vec![]];
    for round in 0..rounds {
        for turn in 0..2 {
            let side = (round + turn) % 2;
            let start = seconds_run();
            if !command(sides[side], input).stdout(Stdio::null()).status().unwrap().success() {
                fail("a program failed");
            }
            times[side].push(seconds_run() - start);
        }
    }
    let [library, plain] = times.map(|mut t: Vec<f64>| {
        t.sort_by(|a, b| a.partial_cmp(b).unwrap());
        t[t.len() / 2]
    });
    println!(
        "{:<19} ratio {:.2}; library {:.2} s, plain {:.2} s; medians of {} turns; both print the same {} bytes",
        "lister", library / plain, library, plain, rounds, text.len()
    );
}
