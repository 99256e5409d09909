//! The lines of docs/CALLS.md, read and written by one table of calls.

use std::fmt::{Display, Write};

use crate::gate::{self, Gate};
use crate::limits::{
    LINE, LINE_LIST, LINE_LOG, LINE_PHASES, LINE_ROWS, LINE_TERMS, LINE_TEXT, LINE_VECTORS, LINE_WORDS,
};

#[derive(Clone, Debug, PartialEq)]
pub enum Field {
    Number(u64),
    Word(u64),
    Words(Vec<u64>),
    Shorts(Vec<u16>),
    /// The units of a log, to be written as target:source where they are even.
    Pairs(Vec<u16>),
    Ints(Vec<i32>),
    Letter(char),
    Lengths([u64; 4]),
    Gate(Gate),
    /// The text of a row as it stands, the rest of its line, and the same as a list of bytes.
    Text(Vec<u8>),
    TextBytes(Vec<u8>),
}

/// Each call with the kinds of its fields: n number, w word, W words of rows, P phase words, S list of u16, G log, V words of
/// terms, I list of i32, K words of a state of many basis vectors, k list of i32 beside them, L letter, C a Clifford gate
/// with its qubits, R the rest of the line, H list of bytes of a text; lent lengths: o words of a matrix, T four of a set to
/// be written, u units of a log, t bytes of a text.
pub const CALLS: [(&str, &str); 25] = [
    ("phase1", "wwww"),
    ("act1", "www"),
    ("get", "nnWWPnn"),
    ("set", "nnWWPnnL"),
    ("count", "nnWWPn"),
    ("act", "nnWWPnW"),
    ("phase", "nnWWPnn"),
    ("phaset", "nnWWPnn"),
    ("comm", "nnWWPnn"),
    ("matrix", "nnWWPo"),
    ("central", "nnWWPn"),
    ("pair", "nnWWPWWPT"),
    ("imul", "nnWWPnn"),
    ("gate", "nnWWPC"),
    ("write", "nnWWPnt"),
    ("read", "nnWWPnR"),
    ("readx", "nnWWPnH"),
    ("pwl", "nnWWPSSSu"),
    ("reduce", "nnWWPSSSu"),
    ("reduceall", "nnWWPu"),
    ("check", "nnWWPSSSGWWP"),
    ("undo", "nnWWPSSG"),
    ("elemf", "nVVVVww"),
    ("elemi", "nVVIIww"),
    ("elems", "nVVIIKkkKkk"),
];

/// Of a call over rows: behind n stands m, then X words, Z words and phase words of its first set, then what else it is given.
pub const M: usize = 1;
pub const SET: usize = 2;
pub const MORE: usize = 5;

#[derive(Clone, Debug, PartialEq)]
pub struct Case {
    pub call: &'static str,
    pub fields: Vec<Field>,
}

impl Case {
    pub fn new(call: &str, fields: Vec<Field>) -> Self {
        let call = CALLS.iter().find(|c| c.0 == call).expect("a call of the table").0;
        Self { call, fields }
    }

    pub fn number(&self, i: usize) -> u64 {
        match &self.fields[i] {
            Field::Number(v) | Field::Word(v) => *v,
            _ => unreachable!("field {i} of {}", self.call),
        }
    }

    pub fn words(&self, i: usize) -> &[u64] {
        match &self.fields[i] {
            Field::Words(v) => v,
            _ => unreachable!("field {i} of {}", self.call),
        }
    }

    pub fn shorts(&self, i: usize) -> &[u16] {
        match &self.fields[i] {
            Field::Shorts(v) | Field::Pairs(v) => v,
            _ => unreachable!("field {i} of {}", self.call),
        }
    }

    pub fn ints(&self, i: usize) -> &[i32] {
        match &self.fields[i] {
            Field::Ints(v) => v,
            _ => unreachable!("field {i} of {}", self.call),
        }
    }

    pub fn gate(&self, i: usize) -> Gate {
        match self.fields[i] {
            Field::Gate(gate) => gate,
            _ => unreachable!("field {i} of {}", self.call),
        }
    }

    pub fn text(&self, i: usize) -> &[u8] {
        match &self.fields[i] {
            Field::Text(v) | Field::TextBytes(v) => v,
            _ => unreachable!("field {i} of {}", self.call),
        }
    }

    /// Behind the last number of a line with the empty text nothing stands.
    pub fn line(&self) -> String {
        let mut out = self.call.to_string();
        for field in self.fields.iter().filter(|field| **field != Field::Text(vec![])) {
            out.push(' ');
            out.push_str(&written(field));
        }
        out
    }
}

/// Whether a line is a case at all: blank lines and comments get no answer.
pub fn is_case(line: &str) -> bool {
    !line.is_empty() && !line.starts_with('#')
}

/// The case of a line, or nothing where it is not of the form.
pub fn parsed(line: &str) -> Option<Case> {
    if line.len() >= LINE {
        return None;
    }
    read(line, true)
}

/// The case of a line that may be longer than `calls` takes them, and its lists too: sets at both limits have such lines.
pub fn parsed_of_any_length(line: &str) -> Option<Case> {
    read(line, false)
}

fn read(line: &str, bounded: bool) -> Option<Case> {
    let name = line.split(' ').next()?;
    let (call, kinds) = CALLS.iter().find(|c| c.0 == name)?;
    // the rest of a line is one part, whatever spaces it has
    let most = if kinds.ends_with('R') { kinds.len() + 1 } else { usize::MAX };
    let mut parts = line.splitn(most, ' ').skip(1);
    let mut fields = vec![];
    for kind in kinds.chars() {
        fields.push(match kind {
            // behind one space; where not even the space stands there, the empty text
            'R' => Field::Text(parts.next().unwrap_or("").as_bytes().to_vec()),
            'C' => Field::Gate(gate::parsed(&mut parts, |text| decimal(text, u64::MAX))?),
            _ => field(kind, parts.next()?, bounded)?,
        });
    }
    if parts.next().is_some() {
        return None;
    }
    Some(Case { call, fields })
}

/// The kinds of a call's fields.
pub fn kinds_of(call: &str) -> std::str::Chars<'static> {
    CALLS.iter().find(|c| c.0 == call).expect("a call of the table").1.chars()
}

fn field(kind: char, text: &str, bounded: bool) -> Option<Field> {
    let most = |room: usize| if bounded { room } else { usize::MAX };
    Some(match kind {
        'n' => Field::Number(decimal(text, u64::MAX)?),
        'w' => Field::Word(hex(text)?),
        'W' => Field::Words(list(text, most(LINE_WORDS), hex)?),
        'P' => Field::Words(list(text, most(LINE_PHASES), hex)?),
        'S' => Field::Shorts(list(text, most(LINE_LIST), short)?),
        'G' if text.contains(':') => Field::Pairs(list(text, most(LINE_LOG) / 2, pair)?.concat()),
        'G' => Field::Shorts(list(text, most(LINE_LOG), short)?),
        'V' => Field::Words(list(text, most(LINE_TERMS), hex)?),
        'I' => Field::Ints(list(text, most(LINE_TERMS), int)?),
        'K' => Field::Words(list(text, most(LINE_VECTORS), hex)?),
        'k' => Field::Ints(list(text, most(LINE_VECTORS), int)?),
        'L' => Field::Letter(letter(text)?),
        'o' => Field::Number(decimal(text, most(LINE_WORDS) as u64)?),
        'u' => Field::Number(decimal(text, most(LINE_LOG) as u64)?),
        't' => Field::Number(decimal(text, most(LINE_TEXT) as u64)?),
        'H' => Field::TextBytes(list(text, most(LINE_TEXT), byte)?),
        _ => Field::Lengths(lengths(text, bounded)?),
    })
}

/// A byte: two digits in lower case.
fn byte(text: &str) -> Option<u8> {
    hex(text).filter(|_| text.len() == 2).map(|v| v as u8)
}

fn short(text: &str) -> Option<u16> {
    decimal(text, 65535).map(|v| v as u16)
}

/// An entry of a log, as `reduce` writes it.
fn pair(text: &str) -> Option<[u16; 2]> {
    let (target, source) = text.split_once(':')?;
    Some([short(target)?, short(source)?])
}

/// A list of at most so many items.
fn list<T>(text: &str, most: usize, one: impl Fn(&str) -> Option<T>) -> Option<Vec<T>> {
    if text == "-" {
        return Some(vec![]);
    }
    let items: Vec<T> = text.split(',').map(one).collect::<Option<_>>()?;
    (items.len() <= most).then_some(items)
}

/// X words, Z words, phase words and numbers of a set to be written.
fn lengths(text: &str, bounded: bool) -> Option<[u64; 4]> {
    let lengths: [u64; 4] = list(text, 4, |s| decimal(s, u64::MAX))?.try_into().ok()?;
    let most = [LINE_WORDS, LINE_WORDS, LINE_PHASES, LINE_ROWS];
    let fit = lengths.iter().zip(most).all(|(length, most)| *length <= most as u64);
    (fit || !bounded).then_some(lengths)
}

/// A decimal number of 1 to 20 digits and at most `top`.
fn decimal(text: &str, top: u64) -> Option<u64> {
    if text.is_empty() || text.len() > 20 || !text.bytes().all(|b| b.is_ascii_digit()) {
        return None;
    }
    text.parse().ok().filter(|v| *v <= top)
}

/// A word of 1 to 16 digits in lower case.
fn hex(text: &str) -> Option<u64> {
    let fits = !text.is_empty() && text.len() <= 16;
    let digits = text.bytes().all(|b| matches!(b, b'0'..=b'9' | b'a'..=b'f'));
    if fits && digits {
        u64::from_str_radix(text, 16).ok()
    } else {
        None
    }
}

fn int(text: &str) -> Option<i32> {
    let size = decimal(text.strip_prefix('-').unwrap_or(text), 1 << 31)? as i64;
    let value = if text.starts_with('-') { -size } else { size };
    i32::try_from(value).ok()
}

fn letter(text: &str) -> Option<char> {
    match text {
        "I" | "X" | "Y" | "Z" => text.chars().next(),
        _ => None,
    }
}

fn written(field: &Field) -> String {
    match field {
        Field::Number(v) => v.to_string(),
        Field::Word(v) => format!("{v:x}"),
        Field::Words(v) => hexes(v),
        Field::Pairs(v) if v.len() % 2 == 0 => {
            joined(&v.chunks(2).map(|entry| format!("{}:{}", entry[0], entry[1])).collect::<Vec<_>>())
        }
        Field::Shorts(v) | Field::Pairs(v) => joined(v),
        Field::Ints(v) => joined(v),
        Field::Letter(v) => v.to_string(),
        Field::Lengths(v) => joined(v),
        Field::Gate(gate) => gate.text(),
        Field::Text(v) => String::from_utf8(v.clone()).expect("the rest of a line is UTF-8"),
        Field::TextBytes(v) => joined(&v.iter().map(|byte| format!("{byte:02x}")).collect::<Vec<_>>()),
    }
}

pub fn hexes(words: &[u64]) -> String {
    listed(words, |out, word| write!(out, "{word:x}"))
}

pub fn joined<T: Display>(items: &[T]) -> String {
    listed(items, |out, item| write!(out, "{item}"))
}

/// The items with commas between, or a dash where there are none.
fn listed<T>(items: &[T], put: impl Fn(&mut String, &T) -> std::fmt::Result) -> String {
    if items.is_empty() {
        return "-".to_string();
    }
    let mut out = String::new();
    for (place, item) in items.iter().enumerate() {
        if place > 0 {
            out.push(',');
        }
        put(&mut out, item).expect("a string takes all");
    }
    out
}
