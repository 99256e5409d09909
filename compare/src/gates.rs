//! Clifford gates on rows, by matrices alone: gate, Paulis and inverse gate on the touched qubits are multiplied out, and
//! what comes out is looked up among the Paulis and their negatives. No sign rule is written down here.

use lines::gate::Gate;

use crate::random::Random;
use crate::rows::{Pauli, Row, LETTERS};

/// A Gaussian integer, and a square matrix of them.
type Number = (i64, i64);
type Matrix = Vec<Vec<Number>>;

const ZERO: Number = (0, 0);
const ONE: Number = (1, 0);
const MINUS: Number = (-1, 0);

fn times(a: &Matrix, b: &Matrix) -> Matrix {
    let entry = |r: usize, c: usize| {
        (0..b.len()).fold(ZERO, |(re, im), k| {
            let ((p, q), (s, t)) = (a[r][k], b[k][c]);
            (re + p * s - q * t, im + p * t + q * s)
        })
    };
    (0..a.len()).map(|r| (0..b.len()).map(|c| entry(r, c)).collect()).collect()
}

fn scaled(by: i64, a: &Matrix) -> Matrix {
    a.iter().map(|row| row.iter().map(|(re, im)| (by * re, by * im)).collect()).collect()
}

fn one(pauli: Pauli) -> [[Number; 2]; 2] {
    match pauli {
        Pauli::I => [[ONE, ZERO], [ZERO, ONE]],
        Pauli::X => [[ZERO, ONE], [ONE, ZERO]],
        Pauli::Y => [[ZERO, (0, -1)], [(0, 1), ZERO]],
        Pauli::Z => [[ONE, ZERO], [ZERO, MINUS]],
    }
}

/// The matrix of one or two Paulis; a basis state has the first qubit's bit in front.
fn of_paulis(paulis: &[Pauli]) -> Matrix {
    let bit = |state: usize, i: usize| state >> (paulis.len() - 1 - i) & 1;
    let entry = |r: usize, c: usize| {
        paulis.iter().enumerate().fold(ONE, |(p, q), (i, pauli)| {
            let (s, t) = one(*pauli)[bit(r, i)][bit(c, i)];
            (p * s - q * t, p * t + q * s)
        })
    };
    let size = 1 << paulis.len();
    (0..size).map(|r| (0..size).map(|c| entry(r, c)).collect()).collect()
}

/// Gate and inverse gate; H without its root of 2, so that the product is twice the Paulis.
fn of_gate(gate: Gate) -> (Matrix, Matrix, i64) {
    let s = |i: i64| vec![vec![ONE, ZERO], vec![ZERO, (0, i)]];
    match gate {
        Gate::H(_) => {
            let h = vec![vec![ONE, ONE], vec![ONE, MINUS]];
            (h.clone(), h, 2)
        }
        Gate::S(_) => (s(1), s(-1), 1),
        Gate::CX(..) => {
            let to = [0, 1, 3, 2];
            let cx: Matrix = to.map(|c| (0..4).map(|k| if k == c { ONE } else { ZERO }).collect()).to_vec();
            (cx.clone(), cx, 1)
        }
    }
}

/// The Paulis at the touched qubits, conjugated, and whether the sign turns.
fn image(gate: Gate, paulis: &[Pauli]) -> (Vec<Pauli>, bool) {
    let (left, right, factor) = of_gate(gate);
    let found = times(&times(&left, &of_paulis(paulis)), &right);
    let candidates: Vec<Vec<Pauli>> = match paulis.len() {
        1 => LETTERS.iter().map(|p| vec![*p]).collect(),
        _ => LETTERS.iter().flat_map(|p| LETTERS.map(|q| vec![*p, q])).collect(),
    };
    for candidate in candidates {
        for sign in [1, -1] {
            if scaled(sign * factor, &of_paulis(&candidate)) == found {
                return (candidate, sign < 0);
            }
        }
    }
    unreachable!("a Clifford gate makes Paulis of Paulis")
}

pub fn conjugate(row: &mut Row, gate: Gate) {
    let qubits = gate.qubits();
    let paulis: Vec<Pauli> = qubits.iter().map(|q| row.paulis[*q as usize]).collect();
    let (paulis, minus) = image(gate, &paulis);
    qubits.iter().zip(paulis).for_each(|(q, pauli)| row.paulis[*q as usize] = pauli);
    row.phase = (row.phase + 2 * minus as u8) % 4;
}

// ---- cases

/// All gates on the first n qubits, control and target the same included.
pub fn every(n: u64) -> Vec<Gate> {
    let one = (0..n).flat_map(|q| [Gate::H(q), Gate::S(q)]);
    let two = (0..n).flat_map(|c| (0..n).map(move |t| Gate::CX(c, t)));
    one.chain(two).collect()
}

/// A qubit below n, often at the edge of a word; 0 where there is none.
fn some(random: &mut Random, n: usize) -> u64 {
    let edges: Vec<usize> = [0, 62, 63, 64, 65, 127, 128, n - n.min(1)].into_iter().filter(|q| *q < n).collect();
    match edges.len() {
        0 => 0,
        _ if random.chance(500) => random.pick(&edges) as u64,
        _ => random.below(n) as u64,
    }
}

pub fn random(random: &mut Random, n: usize) -> Gate {
    match random.below(4) {
        0 => Gate::H(some(random, n)),
        1 => Gate::S(some(random, n)),
        _ => {
            let control = some(random, n);
            let mut target = some(random, n);
            if target == control {
                // Another qubit, where there is one.
                target = if n > 1 { (control + 1) % n as u64 } else { control };
            }
            Gate::CX(control, target)
        }
    }
}
