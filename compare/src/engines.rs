//! Phases of row products by both engines, the counted one (`phase`) and the one by look-ups (`phaset`), on the same rows:
//! odd and even numbers of qubits, around the ends of words and at the limit.

use crate::limits::QUBITS;
use crate::line::Field;
use crate::random::Random;
use crate::rows::{packed, Pauli, Row, Set, LETTERS};
use crate::small::Sink;
use crate::valid::{call_on, rows};

/// Numbers of qubits: none, one look-up with padding and without, the ends of a word, the largest odd one and the limit.
pub const QUBITS_OF_ROWS: [usize; 9] = [0, 1, 2, 3, 63, 64, 65, QUBITS - 1, QUBITS];

pub fn all(seed: u64, count: u64, sink: Sink) {
    for n in QUBITS_OF_ROWS {
        last_qubits(n, sink);
    }
    for i in 0..count {
        let mut random = Random::of(seed ^ 0x7ab1e, i);
        let n = if random.chance(800) { random.pick(&QUBITS_OF_ROWS[..7]) } else { random.pick(&QUBITS_OF_ROWS) };
        let n = if random.chance(100) { random.within(4, 200) } else { n };
        let set = packed(n, &rows(&mut random, n, 2));
        let (a, b) = (random.below(2), random.below(2));
        both(n, &set, a, b, sink);
    }
}

fn both(n: usize, set: &Set, a: usize, b: usize, sink: Sink) {
    for call in ["phase", "phaset"] {
        let more = [a, b].map(|row| Field::Number(row as u64)).to_vec();
        sink(call_on(call, n, set, more).line());
    }
}

/// Every pair of Paulis at the last qubit and at the one before it, the others I: a look-up left out would show.
pub fn last_qubits(n: usize, sink: Sink) {
    for back in 1..=n.min(2) {
        for left in LETTERS {
            for right in LETTERS {
                let row = |letter: Pauli| {
                    let mut paulis = vec![Pauli::I; n];
                    paulis[n - back] = letter;
                    Row { paulis, phase: 0 }
                };
                both(n, &packed(n, &[row(left), row(right)]), 0, 1, sink);
            }
        }
    }
}
