//! Runs the oracle, the program `calls` and the archive in this process over the cases, holds their answers against each
//! other and the model's, and counts.

use std::collections::BTreeMap;
use std::io::{Read, Write};
use std::process::{Command, Stdio};

use crate::line::{is_case, parsed, parsed_of_any_length, Case, CALLS, MORE, SET};
use crate::model;
use crate::rows::{unpacked, Set};

/// The programs to be asked, each with its arguments, and how the archive is.
pub struct Programs {
    pub archive: Option<fn(&Case) -> String>,
    pub oracle: Option<Vec<String>>,
    pub calls: Option<Vec<String>>,
}

#[derive(Default, Clone)]
struct Count {
    compared: u64,
    differing: u64,
}

impl Count {
    fn add(&mut self, agree: bool) {
        self.compared += 1;
        self.differing += !agree as u64;
    }
}

#[derive(Default, Clone)]
struct Tally {
    cases: u64,
    rust_model: Count,
    calls_model: Count,
    calls_rust: Count,
    archive_model: Count,
    archive_rust: Count,
}

/// What each says to one line.
#[derive(Clone, Copy)]
struct Answers<'a> {
    model: &'a str,
    rust: Option<&'a str>,
    calls: Option<&'a str>,
    archive: Option<&'a str>,
}

impl<'a> Answers<'a> {
    fn all(&self) -> [Option<&'a str>; 4] {
        [Some(self.model), self.rust, self.calls, self.archive]
    }

    /// Those of our own code.
    fn ours(&self) -> [Option<&'a str>; 3] {
        [Some(self.model), self.calls, self.archive]
    }
}

/// Floats that are whole numbers: `elemi` and `elemf` on the same terms, sums of `elemf` up to the bound, which have to be
/// the whole-number sums, and sums above it, which need not.
#[derive(Default)]
struct Wholes {
    pairs: Count,
    within: Count,
    above: Count,
    last: Option<(Case, Vec<Option<String>>)>,
}

/// Pairwise products of rows by what the Rust has for them: in all rows of the first kind the phases cancel, and its
/// `cmpnts_mul_pairwise` gives the phase; the second have others too, whose phases are those of its terms' products.
#[derive(Default)]
struct Signs {
    cancelling: Count,
    signed: Count,
}

#[derive(Default)]
pub struct Run {
    wholes: Wholes,
    signs: Signs,
    tallies: BTreeMap<&'static str, Tally>,
    kinds: BTreeMap<String, u64>,
    waiting: Vec<String>,
    bytes: usize,
    shown: usize,
    faults: usize,
    /// Lines may be longer than `calls` takes them.
    any_length: bool,
}

const LINES_AT_ONCE: usize = 20_000;
const BYTES_AT_ONCE: usize = 16_000_000;
const SHOWN: usize = 20;

/// What a program said to some lines: an answer to each, and how often it did not behave as such a program has to.
pub struct Said {
    pub answers: Vec<String>,
    pub faults: usize,
}

/// Asks a program. Every fault is printed; answers that are missing are `(no answer)`.
pub fn asked(program: &[String], lines: &[&str]) -> Said {
    let (out, mut faults) = output_of(program, lines.join("\n") + "\n");
    faults.extend(faults_of(&out));
    let mut answers: Vec<String> = String::from_utf8_lossy(&out).split('\n').map(str::to_string).collect();
    if answers.last().is_some_and(String::is_empty) {
        answers.pop();
    }
    if answers.len() != lines.len() {
        faults.push(format!("{} lines, {} answers", lines.len(), answers.len()));
    }
    faults.iter().for_each(|fault| println!("fault: {}: {fault}", program.join(" ")));
    answers.resize(lines.len(), "(no answer)".to_string());
    Said { answers, faults: faults.len() }
}

/// What a program writes when it is given the text, and what was wrong with its start, its reading and its end.
fn output_of(program: &[String], text: String) -> (Vec<u8>, Vec<String>) {
    let mut command = Command::new(&program[0]);
    command.args(&program[1..]).stdin(Stdio::piped()).stdout(Stdio::piped());
    let mut child = match command.spawn() {
        Ok(child) => child,
        Err(e) => return (vec![], vec![format!("it does not start: {e}")]),
    };
    let mut input = child.stdin.take().expect("standard input");
    let mut output = child.stdout.take().expect("standard output");
    let mut out = vec![];
    let (read, written) = std::thread::scope(|scope| {
        let writer = scope.spawn(move || input.write_all(text.as_bytes()));
        (output.read_to_end(&mut out), writer.join().expect("the writer"))
    });
    let status = child.wait().expect("the program's end");
    let mut faults = vec![];
    faults.extend(read.err().map(|e| format!("its answers cannot be read: {e}")));
    faults.extend(written.err().map(|e| format!("it did not read all lines: {e}")));
    if !status.success() {
        faults.push(format!("it ended with {status}"));
    }
    (out, faults)
}

/// What is wrong with the bytes of some answers: each has to be printable and to end with a line feed.
fn faults_of(out: &[u8]) -> Vec<String> {
    let mut faults = vec![];
    if out.last().is_some_and(|byte| *byte != b'\n') {
        faults.push("the last answer has no line end".to_string());
    }
    if let Some(at) = out.iter().position(|byte| !matches!(byte, b' '..=b'~' | b'\n')) {
        let answer = 1 + out[..at].iter().filter(|byte| **byte == b'\n').count();
        let byte = if out[at] == b'\r' { "a carriage return".to_string() } else { format!("byte {}", out[at]) };
        faults.push(format!("{byte} in answer {answer}"));
    }
    faults
}

/// Whether the Rust has something to say to a case that the model answers so: all that is not refused, refusals 8 and
/// 12, which arise in the work, and of the checker the rows of a full replay.
pub fn rust_answers(line: &str, model: &str) -> bool {
    let works = model.starts_with("ok ") || model == "none" || model.starts_with("refuse 8 ") || model == "refuse 12";
    works && !model.starts_with("ok bad ") && !beyond_floats(line) && !reads_text(line) && !line.starts_with("pwl ")
}

/// The Rust writes the text of a row and reads none. It has no log files either.
fn reads_text(line: &str) -> bool {
    line.starts_with("read ") || line.starts_with("readx ")
}

/// The Rust has no whole numbers: of states it is asked where its floats hold every number on the way.
fn beyond_floats(line: &str) -> bool {
    line.starts_with("elems ") && !parsed(line).is_some_and(|case| model::exact_in_floats(&case))
}

/// Whether an answer agrees with the Rust's.
pub fn agrees_with_rust(answer: &str, rust: &str) -> bool {
    if let Some(rows) = rust.strip_prefix("replay ") {
        return answer.starts_with("ok ") && answer.ends_with(&format!(" {rows}"));
    }
    if answer == "refuse 12" {
        return not_finite(rust);
    }
    answer == rust
}

/// Whether the Rust's element is infinite or no number.
fn not_finite(rust: &str) -> bool {
    let parts = rust.strip_prefix("ok ").unwrap_or("").split(' ');
    parts.map(|bits| u64::from_str_radix(bits, 16)).any(|bits| bits.is_ok_and(|bits| !f64::from_bits(bits).is_finite()))
}

/// The kind of an answer: its words up to the first number that varies.
fn kind_of(answer: &str) -> String {
    let words: Vec<&str> = answer.split(' ').collect();
    match words[..] {
        ["refuse", number, ..] => format!("refuse {number}"),
        ["ok", verdict @ ("bad" | "differs" | "notreduced" | "yes" | "done"), ..] => format!("ok {verdict}"),
        _ => {
            if answer == "bad line" {
                answer.to_string()
            } else {
                words[0].to_string()
            }
        }
    }
}

fn short(text: &str) -> String {
    if text.len() <= 300 {
        text.to_string()
    } else {
        format!("{}... ({} bytes)", &text[..300], text.len())
    }
}

impl Run {
    pub fn of_any_length() -> Self {
        Self { any_length: true, ..Self::default() }
    }

    pub fn put(&mut self, programs: &Programs, line: String) {
        if !is_case(&line) {
            return;
        }
        self.bytes += line.len();
        self.waiting.push(line);
        if self.waiting.len() >= LINES_AT_ONCE || self.bytes >= BYTES_AT_ONCE {
            self.work_off(programs);
        }
    }

    pub fn work_off(&mut self, programs: &Programs) {
        let lines = std::mem::take(&mut self.waiting);
        self.bytes = 0;
        if lines.is_empty() {
            return;
        }
        let cases: Vec<Option<Case>> = lines.iter().map(|line| self.parsed(line)).collect();
        let bad_line = || "bad line".to_string();
        let each = |answer: fn(&Case) -> String| -> Vec<String> {
            cases.iter().map(|case| case.as_ref().map_or_else(bad_line, answer)).collect()
        };
        let model = each(model::answer_to);
        let rust = self.rust_column(programs, &lines, &model);
        let every: Vec<&str> = lines.iter().map(String::as_str).collect();
        let calls = programs.calls.as_ref().map(|program| self.answers(program, &every));
        let archive = programs.archive.map(each);
        for (i, line) in lines.iter().enumerate() {
            // a line that is not of the form is no call
            let archive = nth(&archive, i).filter(|_| cases[i].is_some());
            let answers = Answers { model: &model[i], rust: rust[i].as_deref(), calls: nth(&calls, i), archive };
            self.judge(line, cases[i].as_ref(), answers);
        }
    }

    /// The case of a line, which is not too long for `calls` unless lines of any length were asked for.
    fn parsed(&self, line: &str) -> Option<Case> {
        match self.any_length {
            true => parsed_of_any_length(line),
            false => parsed(line),
        }
    }

    /// The program's answers; its faults are counted.
    fn answers(&mut self, program: &[String], lines: &[&str]) -> Vec<String> {
        let said = asked(program, lines);
        self.faults += said.faults;
        said.answers
    }

    /// The Rust's answers, nothing where it is not asked.
    fn rust_column(&mut self, programs: &Programs, lines: &[String], model: &[String]) -> Vec<Option<String>> {
        let mut out = vec![None; lines.len()];
        if let Some(program) = &programs.oracle {
            let places: Vec<usize> = (0..lines.len()).filter(|i| rust_answers(&lines[*i], &model[*i])).collect();
            let chosen: Vec<&str> = places.iter().map(|i| lines[*i].as_str()).collect();
            let answers = self.answers(program, &chosen);
            places.iter().zip(answers).for_each(|(i, answer)| out[*i] = Some(answer));
        }
        out
    }

    fn judge(&mut self, line: &str, case: Option<&Case>, answers: Answers) {
        *self.kinds.entry(kind_of(answers.model)).or_default() += 1;
        let tally = self.tallies.entry(case.map_or("not of the form", |case| case.call)).or_default();
        tally.cases += 1;
        let mut agree = true;
        let mut held = |count: &mut Count, answer: Option<&str>, other: Option<&str>, same: fn(&str, &str) -> bool| {
            if let (Some(answer), Some(other)) = (answer, other) {
                agree &= counted(count, same(answer, other));
            }
        };
        let Answers { model, rust, calls, archive } = answers;
        held(&mut tally.rust_model, Some(model), rust, agrees_with_rust);
        held(&mut tally.calls_model, calls, Some(model), |a, b| a == b);
        held(&mut tally.calls_rust, calls, rust, agrees_with_rust);
        held(&mut tally.archive_model, archive, Some(model), |a, b| a == b);
        held(&mut tally.archive_rust, archive, rust, agrees_with_rust);
        if let (Some(case), Some(rust)) = (case, rust) {
            self.signs.judge(case, answers.ours().iter().flatten().all(|answer| agrees_with_rust(answer, rust)));
        }
        agree &= self.wholes.judge(case, answers.all());
        if !agree {
            self.show(line, answers);
        }
    }

    fn show(&mut self, line: &str, answers: Answers) {
        self.shown += 1;
        if self.shown > SHOWN {
            return;
        }
        println!("differs: {}", short(line));
        for (name, answer) in ["model:  ", "Rust:   ", "calls:  ", "archive:"].iter().zip(answers.all()) {
            println!("  {name} {}", short(answer.unwrap_or("(not asked)")));
        }
    }

    /// Prints the table; the number of cases with a difference, of faults, and of what the run could not have seen.
    pub fn report(&self) -> usize {
        self.print_table(true);
        println!("{}", self.wholes.report());
        println!("{}", self.signs.report());
        println!("{}", self.wrong());
        self.shown + self.faults + self.wholes.blind() as usize
    }

    /// Prints the table of the calls that were asked; the number of cases with a difference and of faults, and never 0
    /// where no program was asked anything.
    pub fn report_some(&self) -> usize {
        self.print_table(false);
        self.report_lines()
    }

    fn print_table(&self, whole: bool) {
        let pairs = ["Rust and model", "calls and model", "calls and Rust", "archive and model", "archive and Rust"];
        println!("| call | cases | {} | differ |", pairs.join(" | differ | "));
        println!("|---|---:|{}", "---:|---:|".repeat(pairs.len()));
        let names = CALLS.iter().map(|call| call.0).chain(["not of the form"]);
        let mut sum = Tally::default();
        for name in names {
            let tally = self.tallies.get(name).cloned().unwrap_or_default();
            if whole || tally.cases > 0 {
                print_row(name, &tally);
            }
            add(&mut sum, &tally);
        }
        print_row("all", &sum);
        let kinds: Vec<String> = self.kinds.iter().map(|(kind, count)| format!("{kind}: {count}")).collect();
        println!("answers of the model: {}", kinds.join(", "));
    }

    /// Prints how some lines were answered; the number of cases with a difference and of faults, and never 0 where no
    /// program was asked anything.
    pub fn report_lines(&self) -> usize {
        let of = |t: &Tally| t.rust_model.compared + t.calls_model.compared + t.archive_model.compared;
        let compared: u64 = self.tallies.values().map(of).sum();
        println!("answers compared with the model's: {compared}");
        println!("{}", self.wrong());
        self.shown + self.faults + (compared == 0) as usize
    }

    fn wrong(&self) -> String {
        format!("cases with a difference: {}; faults of the programs: {}", self.shown, self.faults)
    }
}

impl Signs {
    /// Counts a pairwise product that the Rust has answered.
    fn judge(&mut self, case: &Case, agree: bool) {
        if case.call == "pair" {
            let rows = |at: usize| unpacked(0, &Set { x: vec![], z: vec![], ..model::set_at(case, at) });
            let cancels = rows(SET).iter().zip(rows(MORE)).all(|(left, right)| (left.phase + right.phase) % 4 == 0);
            let kind = if cancels { &mut self.cancelling } else { &mut self.signed };
            kind.add(agree);
        }
    }

    fn report(&self) -> String {
        let text = |count: &Count| format!("{}, {} differ", count.compared, count.differing);
        format!(
            "pair with the Rust, phases that cancel in every row: {}; others: {}",
            text(&self.cancelling),
            text(&self.signed)
        )
    }
}

impl Wholes {
    /// Whether all answers to a line, and to the line before where it has the same terms, agree as whole numbers.
    fn judge(&mut self, case: Option<&Case>, answers: [Option<&str>; 4]) -> bool {
        let last = self.last.take();
        let Some(case) = case.filter(|case| matches!(case.call, "elemi" | "elemf")) else { return true };
        let mut agree = true;
        if let Some((_, before)) = last.filter(|(whole, _)| same_terms(whole, case)) {
            let same = before.iter().zip(answers).all(|(a, b)| same_element(a.as_deref(), b));
            agree &= counted(&mut self.pairs, same);
        }
        if let Some(sum) = model::whole_sum(case) {
            let exact = answers.iter().flatten().all(|answer| element("elemf", answer) == Some(sum.parts));
            if sum.size <= model::EXACT as i128 {
                agree &= counted(&mut self.within, exact);
            } else {
                self.above.add(exact);
            }
        }
        self.last = Some((case.clone(), answers.iter().map(|answer| answer.map(str::to_string)).collect()));
        agree
    }

    /// Whether the comparison could not have seen a bound that is too large.
    fn blind(&self) -> bool {
        self.above.differing == 0
    }

    fn report(&self) -> String {
        let text = |count: &Count| format!("{}, {} differ", count.compared, count.differing);
        let (pairs, within, above) = (text(&self.pairs), text(&self.within), text(&self.above));
        let blind = if self.blind() { ": no sum above the bound was another number, which is an error" } else { "" };
        format!("elemi and elemf on the same terms: {pairs}; sums of elemf within the bound: {within}; above it: {above}{blind}")
    }
}

/// Whether an `elemi` and an `elemf` have the same terms, bra and ket.
fn same_terms(whole: &Case, float: &Case) -> bool {
    let same_part = |i: usize| {
        let wholes = whole.ints(i).iter().map(|part| Some(*part as i128));
        wholes.eq(float.words(i).iter().map(|bits| model::whole(*bits)))
    };
    let editions = whole.call == "elemi" && float.call == "elemf";
    editions && [0, 1, 2, 5, 6].iter().all(|i| whole.fields[*i] == float.fields[*i]) && same_part(3) && same_part(4)
}

/// An answer as whole numbers; no block is zero.
fn element(call: &str, answer: &str) -> Option<(i128, i128)> {
    if answer == "none" {
        return Some((0, 0));
    }
    let (re, im) = answer.strip_prefix("ok ")?.split_once(' ')?;
    let part = |text: &str| match call {
        "elemf" => model::whole(u64::from_str_radix(text, 16).ok()?),
        _ => text.parse().ok(),
    };
    Some((part(re)?, part(im)?))
}

/// Whether a program gave both editions the same answer: the same numbers, or the same words where there is no sum.
fn same_element(whole: Option<&str>, float: Option<&str>) -> bool {
    match (whole, float) {
        (Some(whole), Some(float)) if whole.starts_with("ok ") => {
            float != "none" && element("elemi", whole).is_some() && element("elemi", whole) == element("elemf", float)
        }
        _ => whole == float,
    }
}

fn nth(answers: &Option<Vec<String>>, i: usize) -> Option<&str> {
    answers.as_ref().map(|answers| answers[i].as_str())
}

fn counted(count: &mut Count, agree: bool) -> bool {
    count.add(agree);
    agree
}

fn print_row(name: &str, tally: &Tally) {
    let pairs = counts_of(tally).map(|count| format!("{} | {}", count.compared, count.differing));
    println!("| {name} | {} | {} |", tally.cases, pairs.join(" | "));
}

fn counts_of(tally: &Tally) -> [&Count; 5] {
    let Tally { rust_model, calls_model, calls_rust, archive_model, archive_rust, .. } = tally;
    [rust_model, calls_model, calls_rust, archive_model, archive_rust]
}

fn add(sum: &mut Tally, tally: &Tally) {
    sum.cases += tally.cases;
    let Tally { rust_model, calls_model, calls_rust, archive_model, archive_rust, .. } = sum;
    for (to, from) in
        [rust_model, calls_model, calls_rust, archive_model, archive_rust].into_iter().zip(counts_of(tally))
    {
        to.compared += from.compared;
        to.differing += from.differing;
    }
}
