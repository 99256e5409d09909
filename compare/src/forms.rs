//! Lines at the edges of the form: zeros before a number up to one digit too many, each kind of number at its ends, and
//! every list and lent length as long as a line may have it, and one longer.

use std::iter::repeat;

use crate::limits::{
    LINE, LINE_LIST, LINE_LOG, LINE_PHASES, LINE_ROWS, LINE_TERMS, LINE_TEXT, LINE_VECTORS, LINE_WORDS, ROWS, TERMS,
};
use crate::line::{joined, kinds_of, Field};
use crate::random::Random;
use crate::rows::{phase_words, Set};
use crate::small::Sink;
use crate::valid::call_on;

/// A sound line of each call, with something in every list.
const LINES: [&str; 26] = [
    "phase1 1 0 1 1",
    "act1 1 1 1",
    "get 1 2 1,0 0,1 c 1 0",
    "set 1 2 1,0 0,1 c 1 0 Y",
    "count 1 2 1,0 0,1 c 1",
    "act 1 2 1,0 0,1 c 1 1",
    "phase 1 2 1,0 0,1 c 0 1",
    "phaset 1 2 1,0 0,1 c 0 1",
    "comm 1 2 1,0 0,1 c 0 1",
    "matrix 1 2 1,0 0,1 c 2",
    "central 1 2 1,0 0,1 c 1",
    "pair 1 2 1,0 0,1 c 1,1 0,1 6 2,2,1,2",
    "imul 1 2 1,0 0,1 c 0 1",
    "gate 1 2 1,0 0,1 c h 0",
    "gate 2 2 1,0 0,1 c cx 0 1",
    "write 1 2 1,0 0,1 c 1 2",
    "read 1 2 1,0 0,1 c 1 Y0",
    "readx 1 2 1,0 0,1 c 1 59,30",
    "pwl 1 2 1,1 0,1 c 0,1 0 1 8",
    "reduce 1 2 1,1 0,1 c 0,1 0 1 8",
    "reduceall 1 2 1,1 0,1 c 8",
    "check 1 2 1,1 0,1 c 0,1 0 1 1,0 1,0 0,1 4",
    "undo 1 2 1,1 0,1 c 0 1 1,0",
    "elemf 1 0,1 1,1 3ff0000000000000,4000000000000000 0,3ff0000000000000 1 1",
    "elemi 1 0,1 1,1 -3,2 5,-7 1 1",
    "elems 1 0,1 1,1 -3,2 5,-7 1,0 2,-3 4,5 1,1 -6,7 8,-9",
];

pub fn all(sink: Sink) {
    short(sink);
    for (most, line) in LISTS {
        sink(zeros(line, most));
        sink(zeros(line, most + 1));
    }
    texts(sink);
    for entries in [LINE_LOG / 2, LINE_LOG / 2 + 1] {
        with_log(&joined(&vec!["0:0"; entries]), sink);
    }
}

/// Those that a file has room for: of the long lists one of each limit, of terms the one too long, of logs none.
pub fn few(sink: Sink) {
    short(sink);
    let mut seen = vec![];
    for (most, line) in LISTS {
        if most < LINE_LOG && !seen.contains(&most) {
            seen.push(most);
            if most < LINE_TERMS {
                sink(zeros(line, most));
            }
            sink(zeros(line, most + 1));
        }
    }
}

fn short(sink: Sink) {
    each_field(sink, digits);
    each_field(sink, ends);
    lengths(sink);
    logs(sink);
}

/// The two calls that are given a log.
fn with_log(text: &str, sink: Sink) {
    sink(format!("check 1 2 1,1 0,1 c 0,1 0 1 {text} 1,0 0,1 8"));
    sink(format!("undo 1 2 1,1 0,1 c 0 1 {text}"));
}

/// Logs as `reduce` prints them and flat, and what is neither.
fn logs(sink: Sink) {
    let of_the_form = ["1:0", "1,0", "-", "0:1,1:0,0:0", "1:0,1:0", "65535:0", "1:65535", "1:2", "2:0", "001:000"];
    let not = [
        "1", "1:", ":0", ":", "1:0:1", "1:0:1:0", "1:0,", ",1:0", "1:0,,1:0", "1:0,1,0", "1,0,1:0", "1:0,1", "1,1:0",
        "1:0,-", "-,1:0", "-:-", "-1:0", "1:-0", "1:+0", "1;0", "1:0;1:0", "1::0", "65536:0", "1:65536", "1:a", "1.0",
    ];
    of_the_form.iter().chain(&not).for_each(|text| with_log(text, sink));
    for digits in [16, 17, 20, 21] {
        with_log(&format!("{:0>digits$}:0", 1), sink);
        with_log(&format!("1:{:0>digits$}", 0), sink);
    }
}

/// The longest lines and answers, too long for a file: as many terms as are taken, in a line as long as one may be and in
/// one a byte longer, and as many rows and entries of a log as a line holds.
pub fn longest(sink: Sink) {
    sink(terms_in(LINE - 1));
    sink(terms_in(LINE));
    let mut random = Random::of(10, 0);
    let mut words = || (0..ROWS).map(|_| random.word() | 1 << 63).collect();
    let phases: Vec<u8> = (0..ROWS).map(|row| row as u8 & 3).collect();
    let set = Set { m: ROWS, x: words(), z: words(), p: phase_words(&phases) };
    sink(call_on("reduceall", 64, &set, vec![Field::Number(LINE_LOG as u64)]).line());
}

/// A line of so many bytes with as many terms as are taken, Z words with zeros before them as the length asks.
fn terms_in(bytes: usize) -> String {
    let terms = |text: &str| joined(&vec![text; TERMS]);
    let part = format!("{:x}", 1f64.to_bits());
    let line = |z: String| {
        format!("elemf 64 {} {z} {} {} ffffffffffffffff 0", terms("ffffffffffffffff"), terms(&part), terms(&part))
    };
    let mut left = bytes - line(terms("1")).len();
    let zeros = std::iter::repeat_with(move || {
        let some = left.min(15);
        left -= some;
        "0".repeat(some) + "1"
    });
    line(joined(&zeros.take(TERMS).collect::<Vec<_>>()))
}

/// Every field of every line with each of its other texts.
fn each_field(sink: Sink, texts: fn(char, &str) -> Vec<String>) {
    for line in LINES {
        let fields: Vec<&str> = line.split(' ').collect();
        // behind the name of a gate stand numbers
        for (at, kind) in (1..fields.len()).zip(kinds_of(fields[0]).chain(repeat('n'))) {
            for text in texts(kind, fields[at]) {
                let mut other = fields.clone();
                other[at] = &text;
                sink(other.join(" "));
            }
        }
    }
}

/// The first item, and the last, with zeros before it: 16 digits are the most of a word, 20 of all others.
fn digits(kind: char, field: &str) -> Vec<String> {
    let items: Vec<&str> = field.split(',').collect();
    let mut places = vec![0, items.len() - 1];
    places.dedup();
    let mut out = vec![];
    for at in places {
        for digits in [16, 17, 20, 21] {
            let (sign, size) = items[at].split_at(items[at].starts_with('-') as usize);
            let long = format!("{sign}{size:0>digits$}");
            let mut other = items.clone();
            other[at] = &long;
            out.push(other.join(","));
        }
    }
    out.retain(|_| !matches!(kind, 'L' | 'C'));
    out
}

/// The first item at the ends of its kind, and outside of them; a list that is none.
fn ends(kind: char, field: &str) -> Vec<String> {
    let items: &[&str] = match kind {
        'n' | 'o' | 'u' | 't' | 'T' => {
            &["65535", "65536", "18446744073709551615", "18446744073709551616", "99999999999999999999"]
        }
        'w' | 'W' | 'P' | 'V' | 'K' => &["ffffffffffffffff", "10000000000000000", "A", "g", "0x1"],
        'S' | 'G' => &["65535", "65536"],
        'I' | 'k' => &["2147483647", "2147483648", "-2147483648", "-2147483649", "-4294967296", "-0", "--1"],
        'R' => &["X0 ", " X0", "\t", "X0 X0", "58,30"],
        'H' => &["58", "5", "058", "5A", "5g", "00", "ff", "0x", "X", "58:30"],
        'C' => &["h", "s", "cx", "H", "S", "CX", "cz", "hs", "c", "0"],
        _ => &["I", "i", "XY"],
    };
    let rest = field.split_once(',').map_or(String::new(), |(_, rest)| format!(",{rest}"));
    let first = items.iter().map(|item| format!("{item}{rest}"));
    let wrong = ["", "+1", "-1", "1 ", "1,", ",1", "1,,1", "1;1", "1\r", "-,-"];
    first.chain(wrong.map(str::to_string)).collect()
}

/// Texts as long as a list of bytes may be, and a byte longer; the rest of a line has no other end than the line's.
fn texts(sink: Sink) {
    for bytes in [LINE_TEXT, LINE_TEXT + 1] {
        sink(format!("read 1 1 1 1 0 0 {}", " ".repeat(bytes)));
        sink(format!("readx 1 1 1 1 0 0 {}", joined(&vec!["58"; bytes])));
    }
}

/// Lent lengths at what a line may ask for, and one more.
fn lengths(sink: Sink) {
    for (most, head) in [
        (LINE_WORDS, "matrix 1 1 1 1 0"),
        (LINE_LOG, "reduceall 1 1 1 1 0"),
        (LINE_LOG, "reduce 1 1 1 1 0 0 0 -"),
        (LINE_TEXT, "write 1 1 1 1 0 0"),
    ] {
        sink(format!("{head} {most}"));
        sink(format!("{head} {}", most + 1));
    }
    let most = [LINE_WORDS, LINE_WORDS, LINE_PHASES, LINE_ROWS];
    sink(format!("pair 0 0 - - - - - - {}", joined(&most)));
    for at in 0..4 {
        let (mut alone, mut more) = ([0; 4], most);
        alone[at] = most[at];
        more[at] += 1;
        sink(format!("pair 0 0 - - - - - - {}", joined(&alone)));
        sink(format!("pair 0 0 - - - - - - {}", joined(&more)));
    }
}

/// Each list by itself, as long as a line may have it and one item longer; `@` is where it stands.
const LISTS: [(usize, &str); 34] = [
    (LINE_WORDS, "count 1 0 @ - - 0"),
    (LINE_WORDS, "count 1 0 - @ - 0"),
    (LINE_PHASES, "count 0 0 - - @ 0"),
    (LINE_WORDS, "act 1 1 0 0 0 0 @"),
    (LINE_WORDS, "pair 1 0 - - - @ - - 0,0,0,0"),
    (LINE_WORDS, "pair 1 0 - - - - @ - 0,0,0,0"),
    (LINE_PHASES, "pair 0 0 - - - - - @ 0,0,0,0"),
    (LINE_LIST, "reduce 1 1 1 1 0 @ - - 0"),
    (LINE_LIST, "reduce 1 1 1 1 0 - @ - 0"),
    (LINE_LIST, "reduce 1 1 1 1 0 - - @ 0"),
    (LINE_LIST, "check 1 1 1 1 0 @ - - - 1 1 0"),
    (LINE_LIST, "check 1 1 1 1 0 - @ - - 1 1 0"),
    (LINE_LIST, "check 1 1 1 1 0 - - @ - 1 1 0"),
    (LINE_LOG, "check 1 1 1 1 0 - - - @ 1 1 0"),
    (LINE_LIST, "undo 1 1 1 1 0 @ - -"),
    (LINE_LIST, "undo 1 1 1 1 0 - @ -"),
    (LINE_LOG, "undo 1 1 1 1 0 - - @"),
    (LINE_WORDS, "check 1 0 - - - - - - - @ - -"),
    (LINE_WORDS, "check 1 0 - - - - - - - - @ -"),
    (LINE_PHASES, "check 0 0 - - - - - - - - - @"),
    (LINE_TERMS, "elemi 1 @ - - - 0 0"),
    (LINE_TERMS, "elemi 1 - @ - - 0 0"),
    (LINE_TERMS, "elemi 1 - - @ - 0 0"),
    (LINE_TERMS, "elemi 1 - - - @ 0 0"),
    (LINE_TERMS, "elemf 1 - - @ - 0 0"),
    (LINE_TERMS, "elemf 1 - - - @ 0 0"),
    (LINE_TERMS, "elems 1 @ - - - - - - - - -"),
    (LINE_TERMS, "elems 1 - - @ - - - - - - -"),
    (LINE_VECTORS, "elems 1 - - - - @ - - - - -"),
    (LINE_VECTORS, "elems 1 - - - - - @ - - - -"),
    (LINE_VECTORS, "elems 1 - - - - - - @ - - -"),
    (LINE_VECTORS, "elems 1 - - - - - - - @ - -"),
    (LINE_VECTORS, "elems 1 - - - - - - - - @ -"),
    (LINE_VECTORS, "elems 1 - - - - - - - - - @"),
];

fn zeros(line: &str, many: usize) -> String {
    line.replace('@', &joined(&vec![0; many]))
}
