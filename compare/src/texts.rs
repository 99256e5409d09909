//! The text of a row, written and read: what RULES 15 says of it, and its cases.

use crate::limits::QUBITS;
use crate::line::Field;
use crate::random::Random;
use crate::rows::{packed, Pauli, Row, Set, LETTERS};
use crate::small::Sink;
use crate::valid::{call_on, dense, of_call, rows, sizes, some, sparse};

/// The Paulis that are not I, by rising qubit, each as its letter and the number of its qubit.
pub fn written(paulis: &[Pauli]) -> String {
    let one = |(q, pauli): (usize, &Pauli)| (*pauli != Pauli::I).then(|| format!("{pauli:?}{q}"));
    paulis.iter().enumerate().filter_map(one).collect::<Vec<_>>().join(" ")
}

/// The Paulis of n qubits whose text it is. It is read generously, zeros, spaces and order as they come, and then has to be
/// the text of what was read.
pub fn read(n: usize, text: &[u8]) -> Option<Vec<Pauli>> {
    let text = std::str::from_utf8(text).ok()?;
    let mut paulis = vec![Pauli::I; n];
    for word in text.split(' ').filter(|word| !word.is_empty()) {
        let letter = LETTERS.into_iter().find(|letter| word.starts_with(&format!("{letter:?}")))?;
        let q: usize = word[1..].parse().ok()?;
        *paulis.get_mut(q)? = letter;
    }
    (written(&paulis) == text).then_some(paulis)
}

// ---- cases

/// What a text of up to six bytes is made of where all of them are read, and of how many qubits.
const ALPHABET: &[u8; 8] = b"XYZ019 \n";
const BYTES: usize = 6;
const QUBITS_OF_TEXTS: [usize; 4] = [0, 1, 2, 11];

pub fn all(seed: u64, count: u64, sink: Sink) {
    QUBITS_OF_TEXTS.into_iter().for_each(|n| all_short(n, BYTES, sink));
    at_each_end(sink);
    for i in 0..count {
        let mut random = Random::of(seed ^ 0x7e87, i);
        sink(of_call(&mut random, "write").line());
        in_both_forms(&mut random, sink);
    }
}

/// All texts of at most so many bytes over the alphabet, into the first of two rows that hold Y everywhere.
pub fn all_short(n: usize, bytes: usize, sink: Sink) {
    let rows = [3, 1].map(|phase| Row { paulis: vec![Pauli::Y; n], phase });
    let set = packed(n, &rows);
    for length in 0..=bytes {
        for code in 0..ALPHABET.len().pow(length as u32) {
            let text = (0..length).map(|i| ALPHABET[code / ALPHABET.len().pow(i as u32) % ALPHABET.len()]).collect();
            sink(into_row(n, &set, 0, Field::TextBytes(text)));
        }
    }
}

fn into_row(n: usize, set: &Set, row: u64, text: Field) -> String {
    let call = if matches!(text, Field::Text(_)) { "read" } else { "readx" };
    call_on(call, n, set, vec![Field::Number(row), text]).line()
}

/// The same text read in both forms, over the same rows.
fn in_both_forms(random: &mut Random, sink: Sink) {
    let (n, m) = sizes(random);
    let set = packed(n, &rows(random, n, m));
    let (row, text) = (some(random, m), self::random(random, n, true));
    for (call, text) in [("read", Field::Text(text.clone())), ("readx", Field::TextBytes(text))] {
        sink(call_on(call, n, &set, vec![row.clone(), text]).line());
    }
}

/// The text of some row; of three, one is damaged in one or two places. A text that is the rest of a line has no line end,
/// and here no byte that is not ASCII.
pub fn random(random: &mut Random, n: usize, in_line: bool) -> Vec<u8> {
    let paulis = if random.chance(500) && n < 200 { dense(random, n) } else { sparse(random, n) };
    let mut text = written(&paulis).into_bytes();
    if random.chance(333) {
        for _ in 0..random.within(1, 2) {
            damage(random, &mut text, in_line);
        }
    }
    text
}

fn damage(random: &mut Random, text: &mut Vec<u8>, in_line: bool) {
    let byte = match random.below(3) {
        0 => random.pick(b"XYZ0123456789 "),
        1 => random.pick(b"Ixyz,-+:;.#_ \t\0"),
        _ if in_line => random.within(32, 126) as u8,
        _ => random.below(256) as u8,
    };
    let at = random.below(text.len() + 1);
    match random.below(4) {
        0 => text.insert(at, byte),
        1 if at < text.len() => text[at] = byte,
        2 if at < text.len() => {
            text.remove(at);
        }
        _ => text.truncate(at),
    }
}

/// A row, and an output around as long as its text.
pub fn to_be_written(random: &mut Random, rows: &[Row]) -> Vec<Field> {
    let Field::Number(row) = some(random, rows.len()) else { unreachable!("the number of a row") };
    let length = rows.get(row as usize).map_or(0, |row| written(&row.paulis).len());
    let lent = match random.below(8) {
        0 => length.saturating_sub(1),
        1 => length + 1,
        2 => random.below(length + 1),
        3 => length + random.below(100),
        4 => 0,
        _ => length,
    };
    vec![Field::Number(row), Field::Number(lent as u64)]
}

/// Texts that come near, of two qubits or of eleven; and where numbers get a digit more.
pub const HOSTILE: [&str; 58] = [
    "X0",
    "X1",
    "X2",
    "X9",
    "X10",
    "X11",
    "X12",
    "Y10",
    "Z10",
    "X0 Y1",
    "X1 Y0",
    "X0 X0",
    "X0 Z0",
    "X1 X1",
    "X00",
    "X01",
    "X0 Y01",
    "X010",
    "X0010",
    "X0 Y10",
    "X9 Y10",
    "X10 Y9",
    " ",
    "  ",
    " X0",
    "X0 ",
    "X0  Y1",
    "X0\tY1",
    "X0\t",
    "\tX0",
    "X0,Y1",
    "X0Y1",
    "X 0",
    "X",
    "Y",
    "XX0",
    "X0X",
    "0",
    "0X",
    "I0",
    "I",
    "x0",
    "X-0",
    "X+0",
    "X-1",
    "X0.",
    "X0\u{b}",
    "X18446744073709551615",
    "X18446744073709551616",
    "X10000000000000000000",
    "X00000000000000000000",
    "X99999999999999999999",
    "X100000000000000000000",
    "X4294967296",
    "X65536",
    "X256",
    "\u{e9}0",
    "X\u{0661}",
];

/// And those that only bytes can say.
const BYTES_ALONE: [&[u8]; 12] =
    [b"X0\n", b"\nX0", b"X0\nY1", b"X0\r", b"X0\0", b"\0", b"X\0", b"X0\0Y1", b"\xd80", b"X\xb0", b"X0\xa0Y1", b"\xff"];

/// Hostile texts in both forms, the digits that come to a number at 10, 100, 1,000 and at the limit, the longest text and
/// outputs around it, the identity, lines that end behind the row number and one space behind it.
pub fn at_each_end(sink: Sink) {
    for n in [2, 11] {
        let set = packed(n, &[Row { paulis: vec![Pauli::Z; n], phase: 2 }]);
        for text in HOSTILE {
            sink(into_row(n, &set, 0, Field::Text(text.into())));
            sink(into_row(n, &set, 0, Field::TextBytes(text.into())));
        }
        BYTES_ALONE.iter().for_each(|text| sink(into_row(n, &set, 0, Field::TextBytes(text.to_vec()))));
    }
    for n in [10, 11, 63, 64, 65, 100, 101, 1000, 1001, QUBITS - 1, QUBITS] {
        let mut paulis = vec![Pauli::I; n];
        let set = packed(n, &[Row { paulis: paulis.clone(), phase: 1 }]);
        for q in [n - 1, n, n + 1, 10 * n] {
            sink(into_row(n, &set, 0, Field::Text(format!("Y{q}").into())));
        }
        sink(into_row(n, &set, 0, Field::Text(format!("X{} Z{}", n - 2, n - 1).into())));
        sink(into_row(n, &set, 0, Field::Text(format!("X{} Z{}", n - 1, n - 2).into())));
        paulis[n - 1] = Pauli::Y;
        paulis[n - 2] = Pauli::X;
        outputs(n, &paulis, sink);
    }
    for line in [
        "read 0 1 - - 3 0",
        "read 0 1 - - 3 0 ",
        "read 2 1 3 1 3 0",
        "read 2 1 3 1 3 0 ",
        "read 2 1 3 1 3 0  ",
        "read 0 1 - - 3 0 X0",
    ] {
        sink(line.to_string());
    }
    for n in [0, 1, 11, 64, QUBITS] {
        outputs(n, &vec![Pauli::I; n], sink);
    }
    longest(sink);
}

/// The text of a row that holds no I, of as many qubits as there may be, written and read.
fn longest(sink: Sink) {
    let paulis: Vec<Pauli> = (0..QUBITS).map(|q| LETTERS[1 + q % 3]).collect();
    outputs(QUBITS, &paulis, sink);
    let text = written(&paulis);
    let none = packed(QUBITS, &[Row { paulis: vec![Pauli::I; QUBITS], phase: 0 }]);
    sink(into_row(QUBITS, &none, 0, Field::Text(text.clone().into())));
    sink(into_row(QUBITS, &none, 0, Field::TextBytes(text.clone().into())));
    sink(into_row(
        QUBITS - 1,
        &packed(QUBITS - 1, &[Row { paulis: vec![Pauli::I; QUBITS - 1], phase: 0 }]),
        0,
        Field::Text(text.into()),
    ));
}

/// A row written into outputs as long as its text, a byte more and a byte less.
fn outputs(n: usize, paulis: &[Pauli], sink: Sink) {
    let set = packed(n, &[Row { paulis: paulis.to_vec(), phase: 3 }]);
    let length = written(paulis).len();
    let mut lengths = vec![length, length + 1, length.saturating_sub(1)];
    lengths.dedup();
    for lent in lengths {
        sink(call_on("write", n, &set, vec![Field::Number(0), Field::Number(lent as u64)]).line());
    }
}
