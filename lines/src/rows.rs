//! Rows as document 01 describes them: a Pauli for each qubit and a phase exponent. Nothing is packed here, so that
//! the model shares no trick with what it judges.

#[derive(Clone, Copy, Debug, PartialEq)]
pub enum Pauli {
    I,
    X,
    Y,
    Z,
}

use Pauli::*;

pub const LETTERS: [Pauli; 4] = [I, X, Y, Z];

#[derive(Clone, Debug, PartialEq)]
pub struct Row {
    pub paulis: Vec<Pauli>,
    pub phase: u8,
}

/// A set as it lies in memory: m rows, their phases two bits each.
#[derive(Clone, Debug, PartialEq)]
pub struct Set {
    pub m: usize,
    pub x: Vec<u64>,
    pub z: Vec<u64>,
    pub p: Vec<u64>,
}

pub fn words_for(n: usize) -> usize {
    n / 64 + (n % 64 > 0) as usize
}

/// Rows to a phase word.
pub const PHASES: usize = 32;

pub fn phase_words_for(m: usize) -> usize {
    m / PHASES + (m % PHASES > 0) as usize
}

/// The phase of row r: the two bits from 2r on, counted over all words.
pub fn phase_at(p: &[u64], r: usize) -> u8 {
    bit(p, 2 * r) as u8 + 2 * bit(p, 2 * r + 1) as u8
}

/// Phases as they lie in words.
pub fn phase_words(phases: &[u8]) -> Vec<u64> {
    let mut out = vec![0; phase_words_for(phases.len())];
    for (r, phase) in phases.iter().enumerate() {
        out[r / PHASES] |= (*phase as u64) << (2 * (r % PHASES));
    }
    out
}

pub fn bit(words: &[u64], q: usize) -> bool {
    words[q / 64] >> (q % 64) & 1 == 1
}

fn pauli_of(x: bool, z: bool) -> Pauli {
    match (x, z) {
        (false, false) => I,
        (true, false) => X,
        (true, true) => Y,
        (false, true) => Z,
    }
}

impl Pauli {
    pub fn has_x(self) -> bool {
        self == X || self == Y
    }

    pub fn has_z(self) -> bool {
        self == Y || self == Z
    }
}

/// The rows of a set whose lengths fit.
pub fn unpacked(n: usize, set: &Set) -> Vec<Row> {
    let w = words_for(n);
    let row = |r: usize| {
        let (x, z) = (&set.x[r * w..(r + 1) * w], &set.z[r * w..(r + 1) * w]);
        let paulis = (0..n).map(|q| pauli_of(bit(x, q), bit(z, q))).collect();
        Row { paulis, phase: phase_at(&set.p, r) }
    };
    (0..set.m).map(row).collect()
}

pub fn packed(n: usize, rows: &[Row]) -> Set {
    let w = words_for(n);
    let p = phase_words(&rows.iter().map(|row| row.phase).collect::<Vec<_>>());
    let mut set = Set { m: rows.len(), x: vec![0; rows.len() * w], z: vec![0; rows.len() * w], p };
    for (r, row) in rows.iter().enumerate() {
        for (q, pauli) in row.paulis.iter().enumerate() {
            set.x[r * w + q / 64] |= (pauli.has_x() as u64) << (q % 64);
            set.z[r * w + q / 64] |= (pauli.has_z() as u64) << (q % 64);
        }
    }
    set
}

/// Product and exponent of two Paulis.
const fn times(a: Pauli, b: Pauli) -> (Pauli, u8) {
    match (a, b) {
        (I, p) | (p, I) => (p, 0),
        (X, Y) => (Z, 1),
        (Y, Z) => (X, 1),
        (Z, X) => (Y, 1),
        (Y, X) => (Z, 3),
        (Z, Y) => (X, 3),
        (X, Z) => (Y, 3),
        _ => (I, 0),
    }
}

/// The same of every pair, made once: runs multiply Paulis by the billion.
static TIMES: [[(Pauli, u8); 4]; 4] = {
    let mut out = [[(I, 0); 4]; 4];
    let mut at = 0;
    while at < 16 {
        out[at / 4][at % 4] = times(LETTERS[at / 4], LETTERS[at % 4]);
        at += 1;
    }
    out
};

fn looked_up(a: &Pauli, b: &Pauli) -> (Pauli, u8) {
    TIMES[*a as usize][*b as usize]
}

pub fn phase(a: &[Pauli], b: &[Pauli]) -> u8 {
    let sum: u64 = a.iter().zip(b).map(|(a, b)| looked_up(a, b).1 as u64).sum();
    (sum % 4) as u8
}

/// Row a times row b: their phases and the exponents of the products add up, mod 4.
pub fn row_product(a: &Row, b: &Row) -> Row {
    let mut exponents = (a.phase + b.phase) as usize;
    let product = |(a, b): (&Pauli, &Pauli)| {
        let (pauli, exponent) = looked_up(a, b);
        exponents += exponent as usize;
        pauli
    };
    let paulis = a.paulis.iter().zip(&b.paulis).map(product).collect();
    Row { paulis, phase: (exponents % 4) as u8 }
}

/// The row whose product with this one is the identity with exponent 0: each Pauli is its own inverse, and i to the p has
/// the inverse i to the 4 - p.
pub fn inverse(a: &Row) -> Row {
    Row { paulis: a.paulis.clone(), phase: (4 - a.phase) % 4 }
}

/// Row a becomes row a times row b; with a = b the bits are cleared and the phase doubled, which the same rule gives.
pub fn multiply(rows: &mut [Row], a: usize, b: usize) {
    rows[a] = row_product(&rows[a], &rows[b]);
}

/// How many qubits hold differing Paulis that are not I.
pub fn clashes(a: &[Pauli], b: &[Pauli]) -> usize {
    a.iter().zip(b).filter(|(a, b)| **a != I && **b != I && a != b).count()
}

pub fn commute(a: &[Pauli], b: &[Pauli]) -> bool {
    clashes(a, b) % 2 == 0
}

/// The exponent of a word on a basis state.
pub fn action(paulis: &[Pauli], state: &[u64]) -> u8 {
    let one = |q: usize, pauli: Pauli| match (pauli, bit(state, q)) {
        (Y, false) => 1u64,
        (Y, true) => 3,
        (Z, true) => 2,
        _ => 0,
    };
    let sum: u64 = paulis.iter().enumerate().map(|(q, pauli)| one(q, *pauli)).sum();
    (sum % 4) as u8
}

/// A word of 64 qubits from its two parts.
pub fn word(x: u64, z: u64) -> Vec<Pauli> {
    (0..64).map(|q| pauli_of(bit(&[x], q), bit(&[z], q))).collect()
}

/// Whether a row has a 1 at a column: q for X of qubit q, n + q for its Z.
pub fn at_column(row: &Row, column: u16) -> bool {
    let (c, n) = (column as usize, row.paulis.len());
    if c < n {
        row.paulis[c].has_x()
    } else {
        row.paulis[c - n].has_z()
    }
}
