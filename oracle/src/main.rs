//! Answers the lines of docs/CALLS.md on standard input by the Rust, one line each on standard output.
//!
//! It is handed calls that document 01 does not refuse, and those refused with 8 or 12, which arise in the work. A
//! line it has no answer for gets `-`, one that stops the Rust gets `panic`. With `--findings` it prints the evidence
//! for docs/DIFFERENCES.md instead.

mod findings;

use std::io::{BufRead, Write};
use std::panic::{catch_unwind, set_hook};

use oracle::answers;

fn main() {
    // A stopped call is an answer; its message would only clutter the run.
    set_hook(Box::new(|_| {}));
    if std::env::args().nth(1).as_deref() == Some("--findings") {
        findings::print();
        return;
    }
    let mut out = std::io::BufWriter::new(std::io::stdout().lock());
    for line in std::io::stdin().lock().lines() {
        let line = line.expect("standard input");
        if line.is_empty() || line.starts_with('#') {
            continue;
        }
        let answer = catch_unwind(|| answers::answer(&line)).unwrap_or(Some("panic".to_string()));
        writeln!(out, "{}", answer.as_deref().unwrap_or("-")).expect("standard output");
    }
}
