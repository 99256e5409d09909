//! compare run SEED COUNT ARCHIVE ORACLE [CALLS...]    compare, print the table
//! compare late SEED COUNT ARCHIVE ORACLE [CALLS...]   compare on reductions at the edges of the table
//! compare lines ARCHIVE ORACLE [CALLS...]             compare on the lines of standard input
//! compare limits SEED ORACLE                          compare the archive on sets of 4,096 rows of 4,096 qubits
//! compare fixed ORACLE CASES ANSWERS                  write the fixed list
//! compare cases SEED COUNT                            print the lines of a run
//! compare model                                       answer the lines on standard input by the model
//! compare files SEED COUNT VERDICT...                 compare on log files, print the table
//! compare archive-files SEED COUNT                    compare the archive on log files
//! compare few VERDICT...                              compare on the first files that hold runs
//! compare file SEED NUMBER                            write that file of a run
//! compare fuzz SECONDS SEED VERDICT...                run `verdict` on files changed at random
//! compare verdict                                     be the program `verdict`, by the model
//! compare page PAGE                                   hold the model against the worked file of docs/PWL.md
//!
//! ARCHIVE is `archive` for the library in this process, where it is built in, or `-`; ORACLE is the oracle's program, or `-` for
//! none; CALLS and VERDICT the programs `calls` and `verdict` with their arguments.

mod both_limits;
mod cases;
mod compare;
#[cfg(feature = "archive")]
mod door;
#[cfg(feature = "archive")]
mod door_files;
mod engines;
mod faults;
mod files;
mod fixed;
mod forms;
mod fuzz;
mod gates;
mod late;
#[cfg(feature = "archive")]
mod lent;
mod malformed;
mod model;
mod phases;
mod pwl;
mod reduction;
mod small;
mod spawn;
mod states;
mod texts;
mod undoing;
mod valid;
mod verdicts;
mod whole;

use std::io::{BufRead, Read, Write};
use std::process::exit;

use lines::{limits, line, random, rows};

use compare::{Programs, Run};

fn main() {
    let args: Vec<String> = std::env::args().skip(1).collect();
    let args: Vec<&str> = args.iter().map(String::as_str).collect();
    let differences = match args[..] {
        ["run", seed, count, archive, oracle, ref calls @ ..] => {
            run(number(seed), number(count), programs(archive, oracle, calls))
        }
        ["late", seed, count, archive, oracle, ref calls @ ..] => {
            run_late(number(seed), number(count), programs(archive, oracle, calls))
        }
        ["lines", archive, oracle, ref calls @ ..] => compare_lines(programs(archive, oracle, calls)),
        ["limits", seed, oracle] => limits_run(number(seed), programs("archive", oracle, &[])),
        ["archive-files", seed, count] => archive_files(number(seed), number(count)),
        ["fixed", oracle, cases, answers] => fixed::write(program(&[oracle]), cases, answers),
        ["cases", seed, count] => print_cases(number(seed), number(count)),
        ["model"] => print_answers(),
        ["files", seed, count, ref verdict @ ..] if !verdict.is_empty() => {
            verdicts::compare(number(seed), number(count), &program(verdict).unwrap_or_else(|| usage()))
        }
        ["few", ref verdict @ ..] if !verdict.is_empty() => {
            verdicts::compare_few(&program(verdict).unwrap_or_else(|| usage()))
        }
        ["fuzz", seconds, seed, ref verdict @ ..] if !verdict.is_empty() => {
            fuzz::run(number(seconds), number(seed), &program(verdict).unwrap_or_else(|| usage()))
        }
        ["file", seed, at] => write_file(number(seed), number(at)),
        ["verdict"] => print_verdict(),
        ["page", page] => hold_to_page(page),
        _ => usage(),
    };
    exit((differences > 0) as i32);
}

fn usage() -> ! {
    eprintln!(
        "usage: compare run SEED COUNT ARCHIVE ORACLE [CALLS...] | late SEED COUNT ARCHIVE ORACLE [CALLS...] \
         | lines ARCHIVE ORACLE [CALLS...] | limits SEED ORACLE | fixed ORACLE CASES ANSWERS | cases SEED COUNT | model \
         | files SEED COUNT VERDICT... | archive-files SEED COUNT | few VERDICT... | file SEED NUMBER \
         | fuzz SECONDS SEED VERDICT... | verdict | page PAGE"
    );
    exit(2)
}

fn number(text: &str) -> u64 {
    text.parse().unwrap_or_else(|_| usage())
}

/// A program with its arguments, or none.
fn program(words: &[&str]) -> Option<Vec<String>> {
    match words {
        [] | ["-"] => None,
        _ => Some(words.iter().map(|word| word.to_string()).collect()),
    }
}

fn programs(archive: &str, oracle: &str, calls: &[&str]) -> Programs {
    let archive = match archive {
        "-" => None,
        "archive" => Some(in_process().unwrap_or_else(|| {
            eprintln!("compare: the archive is not built in");
            exit(2)
        })),
        _ => usage(),
    };
    Programs { archive, oracle: program(&[oracle]), calls: program(calls) }
}

/// How the archive in this process is asked.
fn in_process() -> Option<fn(&line::Case) -> String> {
    #[cfg(feature = "archive")]
    return Some(door::answer);
    #[cfg(not(feature = "archive"))]
    None
}

fn run(seed: u64, count: u64, programs: Programs) -> usize {
    let mut run = Run::default();
    cases::all(seed, count, &mut |line| run.put(&programs, line));
    run.work_off(&programs);
    println!("seed {seed}, {count} random cases and all small ones");
    run.report()
}

fn run_late(seed: u64, count: u64, programs: Programs) -> usize {
    let mut run = Run::default();
    let reached = late::all(seed, count, &mut |line| run.put(&programs, line));
    run.work_off(&programs);
    println!("seed {seed}, {count} reductions at the edges of the table");
    println!("{}", reached.report());
    run.report_some() + reached.blind() as usize
}

fn compare_lines(programs: Programs) -> usize {
    let mut run = Run::default();
    input(&mut |line| run.put(&programs, line));
    run.work_off(&programs);
    run.report_lines()
}

fn limits_run(seed: u64, programs: Programs) -> usize {
    let mut run = Run::of_any_length();
    both_limits::all(seed, &mut |line| {
        run.put(&programs, line);
        run.work_off(&programs);
    });
    println!("seed {seed}, sets of 4,096 rows of 4,096 qubits");
    run.report_some()
}

/// The verdict of the archive on log files, against the model's.
#[cfg(feature = "archive")]
fn archive_files(seed: u64, count: u64) -> usize {
    verdicts::compare_by(seed, count, &|file| {
        let record = pwl::read(file);
        (door_files::verdict(file, record.as_ref().ok()), pwl::verdict_on(&record))
    })
}

#[cfg(not(feature = "archive"))]
fn archive_files(_: u64, _: u64) -> usize {
    eprintln!("compare: the archive is not built in");
    exit(2)
}

/// The lines of standard input as they are: only the line feed is taken off.
fn input(sink: &mut dyn FnMut(String)) {
    for line in std::io::stdin().lock().split(b'\n') {
        sink(String::from_utf8_lossy(&line.expect("standard input")).into_owned());
    }
}

fn print_cases(seed: u64, count: u64) -> usize {
    let mut out = std::io::BufWriter::new(std::io::stdout().lock());
    cases::all(seed, count, &mut |line| writeln!(out, "{line}").expect("standard output"));
    0
}

fn print_answers() -> usize {
    let mut out = std::io::BufWriter::new(std::io::stdout().lock());
    input(&mut |line| {
        if line::is_case(&line) {
            writeln!(out, "{}", model::answer(&line)).expect("standard output");
        }
    });
    0
}

/// The files of a run have numbers from 0 on.
fn write_file(seed: u64, at: u64) -> usize {
    let mut number = 0;
    files::all(seed, at + 1, &mut |file| {
        if number == at {
            std::io::stdout().write_all(&file.bytes).expect("standard output");
        }
        number += 1;
    });
    0
}

fn print_verdict() -> usize {
    let mut bytes = vec![];
    std::io::stdin().read_to_end(&mut bytes).expect("standard input");
    println!("{}", pwl::line_of(&bytes));
    0
}

fn hold_to_page(page: &str) -> usize {
    let text = std::fs::read_to_string(page).unwrap_or_else(|e| panic!("{page}: {e}"));
    let agrees = files::agrees_with_page(&text);
    println!("the worked file of {page}: the model {}", if agrees { "writes and reads it" } else { "writes another" });
    !agrees as usize
}
