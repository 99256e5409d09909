//! Phases two bits each: numbers of rows around the ends of phase words and at the limit, spare bits, phase words too few
//! and too many, and sums that would carry into a neighbour.

use crate::limits::ROWS;
use crate::line::{Case, Field, CALLS, M, MORE, SET};
use crate::random::Random;
use crate::rows::{packed, Pauli, Row, PHASES};
use crate::small::{pair, Sink};
use crate::valid::{call_on, over_rows, rows};
use lines::gate::Gate;

/// Numbers of rows: none, one, the ends of one word and of two, the limit and past it.
const EDGES: [usize; 11] = [0, 1, 31, 32, 33, 63, 64, 65, ROWS - 1, ROWS, ROWS + 1];

/// Every call at each number of rows; where these are few, of so many qubits.
pub fn all(qubits: &[usize], sink: Sink) {
    let mut random = Random::of(14, 0);
    for m in EDGES {
        let few = m < 100;
        for n in if few { qubits.to_vec() } else { vec![0, 1] } {
            for (call, _) in CALLS.iter().filter(|call| call.1.starts_with("nnWWP")) {
                let rows = rows(&mut random, n, m);
                let case = over_rows(&mut random, call, n, rows);
                sink(case.line());
                if few || matches!(*call, "count" | "imul" | "pair" | "check") {
                    spoiled(&case, sink);
                }
            }
        }
    }
    carries(sink);
}

/// Where the phase words of a call's sets stand.
fn phases_of(case: &Case) -> Vec<usize> {
    match case.call {
        "pair" => vec![SET + 2, MORE + 2],
        "check" => vec![SET + 2, MORE + 6],
        _ => vec![SET + 2],
    }
}

/// Each set with a spare bit set, next to the last row, in the last bit and between, with a phase word more and one less;
/// and m one more and one less than the words are for.
fn spoiled(case: &Case, sink: Sink) {
    let m = case.number(M);
    for at in phases_of(case) {
        let mut put = |change: &dyn Fn(&mut Vec<u64>)| {
            let mut other = case.clone();
            let Field::Words(words) = &mut other.fields[at] else { unreachable!("phase words") };
            change(words);
            sink(other.line());
        };
        let first = 2 * (m as usize % PHASES);
        if first > 0 {
            for bit in [first, (first + 63) / 2, 63] {
                put(&|words| *words.last_mut().expect("a phase word") |= 1 << bit);
            }
        }
        put(&|words| words.push(0));
        put(&|words| words.truncate(words.len().saturating_sub(1)));
    }
    for other_m in [m + 1, m.saturating_sub(1)] {
        let mut other = case.clone();
        other.fields[M] = Field::Number(other_m);
        sink(other.line());
    }
}

fn number(v: usize) -> Field {
    Field::Number(v as u64)
}

/// Rows of phases that add up to 4 and more, at both ends of a word: a carry would be seen in the next row.
pub fn carries(sink: Sink) {
    let row = |paulis: &[Pauli], phase: u8| Row { paulis: paulis.to_vec(), phase };
    let full = |m: usize, paulis: &[Pauli], phase: u8| packed(paulis.len(), &vec![row(paulis, phase); m]);
    for m in [31, 32, 33, 64, 65] {
        for phase in [2, 3] {
            let set = full(m, &[], phase);
            for r in [0, 30, 31, 32, 63, 64].into_iter().filter(|r| *r < m) {
                sink(call_on("imul", 0, &set, vec![number(r), number(r)]).line());
                sink(call_on("imul", 0, &set, vec![number(r), number(0)]).line());
            }
            sink(pair(0, &set, &set));
            let ys = full(m, &[Pauli::Y], phase);
            for gate in [Gate::H(0), Gate::S(0)] {
                sink(call_on("gate", 1, &ys, vec![Field::Gate(gate)]).line());
            }
            sink(pair(1, &full(m, &[Pauli::X], phase), &ys));
            sink(call_on("reduceall", 1, &ys, vec![number(2 * m)]).line());
        }
    }
}
