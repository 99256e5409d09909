//! Taking times and printing them.

use std::io::Write;
use std::time::Duration;

/// How often each side is timed; the table has the median.
pub const RUNS: usize = 51;

/// The same where one run of the Rust takes seconds.
pub const FEW_RUNS: usize = 5;

#[repr(C)]
struct Timespec {
    seconds: i64,
    nanos: i64,
}

extern "C" {
    fn clock_gettime(clock: i32, time: *mut Timespec) -> i32;
}

/// The processor time that this thread has had: what others take of a shared machine does not count.
fn thread_time() -> Duration {
    const CLOCK_THREAD_CPUTIME_ID: i32 = 3;
    let mut time = Timespec { seconds: 0, nanos: 0 };
    assert_eq!(unsafe { clock_gettime(CLOCK_THREAD_CPUTIME_ID, &mut time) }, 0);
    Duration::new(time.seconds as u64, time.nanos as u32)
}

pub fn time(work: impl FnOnce()) -> Duration {
    let began = thread_time();
    work();
    thread_time() - began
}

/// One side: how many calls a run is, and a run.
pub struct Side<'a>(pub usize, pub Box<dyn FnMut() -> Duration + 'a>);

impl Side<'_> {
    /// Seconds of one call, the median over the runs.
    fn median(&self, mut runs: Vec<Duration>) -> f64 {
        runs.sort_unstable();
        runs[runs.len() / 2].as_secs_f64() / self.0 as f64
    }
}

/// A side of so many calls a run.
pub fn side<'a>(calls: usize, run: impl FnMut() -> Duration + 'a) -> Side<'a> {
    Side(calls, Box::new(run))
}

/// The header of a table with calls of many rows.
pub fn long_header() {
    header(&format!(
        "{RUNS} runs of each side ({FEW_RUNS} for more than 256 rows of the matrix, a reduction or texts)"
    ));
}

pub fn header(runs: &str) {
    println!("median of {runs}, turn about, in the thread's own processor time");
    println!();
    println!("| call | size | ours | limit in C | the Rust | ours / the Rust | limit / the Rust |");
    println!("|---|---|---:|---:|---:|---:|---:|");
    if let Some(path) = numbers() {
        std::fs::write(path, "call\tsize\tours\tlimit\tthe Rust\n").expect("the numbers can be written");
    }
}

/// The file that has each line's seconds again, tab after tab, if one is named.
fn numbers() -> Option<String> {
    std::env::var("MEASURE_NUMBERS").ok()
}

/// Whether a call is to be timed: with `--only WORD` those whose name has the word.
pub fn asked(name: &str) -> bool {
    let mut words = std::env::args().skip(1);
    words.next().as_deref() != Some("--only") || words.next().is_some_and(|word| name.contains(&word))
}

/// Times all sides, turn about, and prints a line: ours, the fastest of the ways in C if there is one, and the Rust.
pub fn line(name: &str, size: &str, runs: usize, ours: Side, rust: Side, ways: Vec<(&str, Side)>) {
    let mut sides = vec![rust, ours];
    sides.extend(ways.into_iter().map(|(_, side)| side));
    let mut times = vec![vec![]; sides.len()];
    // the first turn fills the caches and is not counted
    for turn in 0..=runs {
        for (side, times) in sides.iter_mut().zip(&mut times) {
            let time = (side.1)();
            if turn > 0 {
                times.push(time);
            }
        }
    }
    let medians = sides.iter().zip(times).map(|(side, times)| side.median(times)).collect::<Vec<_>>();
    let (rust, ours) = (medians[0], medians[1]);
    let limit = medians[2..].iter().copied().reduce(f64::min);
    let told = |text: fn(f64) -> String, value: Option<f64>| value.map(text).unwrap_or_default();
    println!(
        "| {name} | {size} | {} | {} | {} | {} | {} |",
        short(ours),
        told(short, limit),
        short(rust),
        shown(ours / rust),
        told(shown, limit.map(|limit| limit / rust))
    );
    if let Some(path) = numbers() {
        let limit = limit.map(|limit| format!("{limit:e}")).unwrap_or_default();
        let mut file = std::fs::OpenOptions::new().append(true).open(path).expect("the numbers' file");
        writeln!(file, "{name}\t{size}\t{ours:e}\t{limit}\t{rust:e}").expect("the numbers can be written");
    }
}

fn shown(ratio: f64) -> String {
    match ratio {
        r if r < 0.1 => format!("{r:.4}"),
        r if r < 10.0 => format!("{r:.2}"),
        r => format!("{r:.0}"),
    }
}

fn short(seconds: f64) -> String {
    let nanos = seconds * 1e9;
    match nanos {
        n if n < 1e3 => format!("{n:.0} ns"),
        n if n < 1e6 => format!("{:.1} µs", n / 1e3),
        n => format!("{:.2} ms", n / 1e6),
    }
}
