//! Runs the program `verdict` over files, holds its line and its end against the model's, and counts.

use std::collections::BTreeMap;
use std::sync::atomic::{AtomicUsize, Ordering};
use std::sync::Mutex;

use crate::files::{self, File, KINDS};
use crate::pwl::{image, is_fixed_text, line_of, read};
use crate::random::Random;
use crate::spawn::{run, Way, WAYS};

const AT_ONCE: usize = 2;
const BATCH: usize = 2000;
const SHOWN: usize = 20;

/// The way in which file i is handed over: one of ten in odd pieces, one of ten byte by byte, one of twenty from disk.
fn way_of(i: usize) -> Way {
    match Random::of(i as u64, 29).below(20) {
        0 | 1 => Way::Pieces,
        2 | 3 => Way::Bytes,
        4 => Way::Disk,
        _ => Way::Pipe,
    }
}

/// What was wrong with a run of the program on a file; nothing where it did as the model. A program may stop reading where
/// an input is too large.
pub fn wrong(program: &[String], file: &[u8], way: Way, place: &str) -> Option<String> {
    let due = line_of(file);
    if read(file).is_ok_and(|record| image(&record) != file) {
        return Some("the model's reader and writer differ".to_string());
    }
    let ran = match run(program, file, way, place) {
        Ok(ran) => ran,
        Err(reason) => return Some(reason),
    };
    let Some(status) = ran.status else { return Some("it hangs".to_string()) };
    if !status.success() {
        return Some(format!("it ended with {status}, where '{due}' is due"));
    }
    let said = String::from_utf8_lossy(&ran.out);
    match said.strip_suffix('\n') {
        None => Some(format!("it said {said:?}, which has no line end, where '{due}' is due")),
        Some(line) if !is_fixed_text(line) => {
            Some(format!("it said {line:?}, which is none of the texts, where '{due}' is due"))
        }
        Some(line) if line != due => Some(format!("it said '{line}', where '{due}' is due")),
        Some(_) if !ran.took_all && due != "too large" => Some("it did not read all bytes".to_string()),
        Some(_) => None,
    }
}

/// The words of a line without its number: what lines are counted by.
pub fn kind_of(line: &str) -> String {
    match line.split(' ').next() {
        Some("bad") => "bad entry".to_string(),
        Some("row") => "row differs".to_string(),
        _ => line.to_string(),
    }
}

pub fn counts(lines: &BTreeMap<String, u64>) -> String {
    lines.iter().map(|(line, count)| format!("{line}: {count}")).collect::<Vec<_>>().join(", ")
}

pub fn hex(bytes: &[u8]) -> String {
    let shown: String = bytes.iter().take(256).map(|byte| format!("{byte:02x}")).collect();
    let more = if bytes.len() > 256 { "..." } else { "" };
    format!("{shown}{more}")
}

#[derive(Default, Clone)]
struct Count {
    files: u64,
    differing: u64,
}

impl Count {
    fn add(&mut self, differs: bool) {
        self.files += 1;
        self.differing += differs as u64;
    }
}

#[derive(Default)]
struct Tally {
    kinds: BTreeMap<&'static str, Count>,
    ways: BTreeMap<&'static str, Count>,
    lines: BTreeMap<String, u64>,
    all: Count,
}

impl Tally {
    fn add(&mut self, number: usize, file: &File, wrong: Option<String>) {
        let differs = wrong.is_some();
        let way = WAYS.iter().find(|way| way.0 == way_of(number)).expect("a way").1;
        self.kinds.entry(file.kind).or_default().add(differs);
        self.ways.entry(way).or_default().add(differs);
        *self.lines.entry(kind_of(&line_of(&file.bytes))).or_default() += 1;
        self.all.add(differs);
        if let Some(reason) = wrong.filter(|_| self.all.differing <= SHOWN as u64) {
            println!("differs: file {number} ({}, {} bytes, {way}): {reason}", file.kind, file.bytes.len());
            println!("  {}", hex(&file.bytes));
        }
    }

    /// Prints the table; how many files differ, and never 0 where none was run.
    fn report(&self) -> usize {
        println!("| files | number | differ |");
        println!("|---|---:|---:|");
        let row = |name: &str, count: &Count| println!("| {name} | {} | {} |", count.files, count.differing);
        let none = Count::default();
        KINDS.iter().for_each(|kind| row(kind, self.kinds.get(kind).unwrap_or(&none)));
        row("all", &self.all);
        WAYS.iter().for_each(|way| row(way.1, self.ways.get(way.1).unwrap_or(&none)));
        println!("lines of the model: {}", counts(&self.lines));
        println!("files with a difference: {}", self.all.differing);
        self.all.differing as usize + (self.all.files == 0) as usize
    }
}

/// Runs the program over at least `count` files; how many differ.
pub fn compare(seed: u64, count: u64, program: &[String]) -> usize {
    let mut tally = Tally::default();
    let mut waiting: Vec<File> = vec![];
    let mut done = 0;
    files::all(seed, count, &mut |file| {
        waiting.push(file);
        if waiting.len() == BATCH {
            done += work_off(program, &mut tally, done, std::mem::take(&mut waiting));
        }
    });
    work_off(program, &mut tally, done, waiting);
    println!("seed {seed}, the fixed files and {count} more");
    tally.report()
}

/// What is said in this process on at least `count` files, and what is due; how many differ.
pub fn compare_by(seed: u64, count: u64, said_and_due: &dyn Fn(&[u8]) -> (String, String)) -> usize {
    let (mut number, mut differing) = (0, 0);
    let mut lines = BTreeMap::new();
    files::all(seed, count, &mut |file| {
        let (said, due) = said_and_due(&file.bytes);
        *lines.entry(kind_of(&due)).or_default() += 1;
        if said != due {
            differing += 1;
            if differing <= SHOWN {
                println!("differs: file {number} ({}): it said '{said}', where '{due}' is due", file.kind);
            }
        }
        number += 1;
    });
    println!(
        "seed {seed}, {number} log files through the archive: opened, read and checked; lines of the model: {}",
        counts(&lines)
    );
    println!("files with a difference: {differing}");
    differing + (number == 0) as usize
}

/// Runs the program over the first rounds alone: enough for a program that is wrong on most files.
pub fn compare_few(program: &[String]) -> usize {
    let mut tally = Tally::default();
    let mut files = vec![];
    files::rounds(1, 100, &mut |file| files.push(file));
    work_off(program, &mut tally, 0, files);
    tally.report()
}

/// Runs the program on some files, two at once; how many they were.
fn work_off(program: &[String], tally: &mut Tally, from: usize, files: Vec<File>) -> usize {
    let next = AtomicUsize::new(0);
    let found = Mutex::new(BTreeMap::new());
    std::thread::scope(|scope| {
        for worker in 0..AT_ONCE {
            let (next, found, files) = (&next, &found, &files);
            scope.spawn(move || {
                let place = place_of(worker);
                loop {
                    let i = next.fetch_add(1, Ordering::Relaxed);
                    let Some(file) = files.get(i) else { break };
                    if let Some(reason) = wrong(program, &file.bytes, way_of(from + i), &place) {
                        found.lock().expect("the findings").insert(i, reason);
                    }
                }
                let _ = std::fs::remove_file(&place);
            });
        }
    });
    let mut found = found.into_inner().expect("the findings");
    files.iter().enumerate().for_each(|(i, file)| tally.add(from + i, file, found.remove(&i)));
    files.len()
}

/// A file of this process and this worker.
pub fn place_of(worker: usize) -> String {
    std::env::temp_dir().join(format!("verdict-{}-{worker}.pwl", std::process::id())).to_string_lossy().into_owned()
}
