// Timing three sides in turn, in one process.
use crate::values::{BLOCKS, COUNT};

const ROUNDS: usize = 31;
const LIMIT: f64 = 1.5;

#[repr(C)]
struct Timespec {
    seconds: i64,
    nanoseconds: i64,
}

// Linux's C library, on 64-bit machines.
extern "C" {
    fn clock_gettime(clock: i32, time: *mut Timespec) -> i32;
}

const THREAD_CPU_TIME: i32 = 3;

// Seconds that this thread has run: time given to other processes of a shared machine is not in it.
fn seconds_run() -> f64 {
    let mut time = Timespec { seconds: 0, nanoseconds: 0 };
    if unsafe { clock_gettime(THREAD_CPU_TIME, &mut time) } != 0 {
        eprintln!("this system has no clock for a thread's own time");
        std::process::exit(1);
    }
    time.seconds as f64 + time.nanoseconds as f64 / 1e9
}

fn median(times: &mut [f64]) -> f64 {
    times.sort_by(|a, b| a.partial_cmp(b).unwrap());
    times[times.len() / 2]
}

// Three sides in turn, `ROUNDS` times: the library, the plain version, the empty call, whose time is taken off both.
// Times are given for one of the `count` words, values or blocks of a round. Gives whether the ratio is within the limit.
pub fn compare(name: &str, count: usize, sides: [&mut dyn FnMut() -> u64; 3]) -> bool {
    let sum = sides[0]();
    if sum != sides[1]() {
        eprintln!("{}: the library and the plain version give different answers; nothing is timed", name);
        std::process::exit(1);
    }
    let mut times = [vec![], vec![], vec![]];
    for round in 0..ROUNDS {
        for turn in 0..3 {
            let side = (round + turn) % 3;
            let start = seconds_run();
            let again = sides[side]();
            times[side].push(seconds_run() - start);
            if side < 2 && again != sum {
                eprintln!("{}: an answer changed between rounds", name);
                std::process::exit(1);
            }
        }
    }
    let [library, plain, empty] = times.map(|mut t| median(&mut t) / count as f64 * 1e9);
    let net = (library - empty) / (plain - empty);
    println!(
        "{:<19} ratio {:.2}, with loop and call {:.2}; library {:.1} ns, plain {:.1} ns, empty call {:.1} ns; answers {:016x}",
        name, net, library / plain, library, plain, empty, sum
    );
    net <= LIMIT
}

pub fn conclude(within: bool) {
    println!("medians of {} rounds of {} values or {} blocks; {} ratio is at most {}", ROUNDS, COUNT, BLOCKS, if within { "every" } else { "NOT every" }, LIMIT);
}
