//! Sets of 4,096 rows of 4,096 qubits: every call over rows, as lines that are longer than `calls` takes them. Most sets are spanned by a few
//! rows, so that the model, which takes a step a qubit, has some hundred thousand products to make; the last one is not.

use lines::gate::Gate;

use crate::limits::{QUBITS, ROWS};
use crate::line::Field;
use crate::random::Random;
use crate::reduction::{reduce, Lists};
use crate::rows::{packed, row_product, words_for, Row, Set};
use crate::small::Sink;
use crate::valid::{call_on, dense, further, lengths_of};

/// The rows that span most sets.
const SPAN: usize = 100;

const LAST: u64 = ROWS as u64 - 1;
const LAST_QUBIT: u64 = QUBITS as u64 - 1;

pub fn all(seed: u64, sink: Sink) {
    let mut random = Random::of(seed ^ 0x4096, 0);
    let rows = spanned(&mut random);
    let set = packed(QUBITS, &rows);
    let other = packed(QUBITS, &spanned(&mut random));
    one_set(&mut random, &set, sink);
    pairs(&set, &other, sink);
    one_past(&set, &other, sink);
    reductions(&mut random, &rows, &set, sink);
    let any = packed(QUBITS, &any_rows(&mut random, ROWS));
    sink(line("reduceall", &any, vec![Field::Number(units_for_all())]));
}

fn line(call: &str, set: &Set, more: Vec<Field>) -> String {
    call_on(call, QUBITS, set, more).line()
}

fn any_rows(random: &mut Random, count: usize) -> Vec<Row> {
    (0..count).map(|_| Row { paulis: dense(random, QUBITS), phase: random.below(4) as u8 }).collect()
}

/// Rows that are products of a few, in any order.
fn spanned(random: &mut Random) -> Vec<Row> {
    let mut rows = any_rows(random, SPAN);
    while rows.len() < ROWS {
        let (a, b) = (random.below(SPAN), random.below(rows.len()));
        rows.push(row_product(&rows[a], &rows[b]));
    }
    random.shuffle(&mut rows);
    rows
}

/// Units for the most entries that a reduction by all columns can make.
fn units_for_all() -> u64 {
    2 * (ROWS * ROWS.min(2 * QUBITS)) as u64
}

/// The calls over one set, at its last rows and qubits.
fn one_set(random: &mut Random, set: &Set, sink: Sink) {
    let numbers = |numbers: &[u64]| numbers.iter().map(|number| Field::Number(*number)).collect::<Vec<_>>();
    sink(line("get", set, numbers(&[LAST, LAST_QUBIT])));
    sink(line("set", set, [numbers(&[LAST, LAST_QUBIT]), vec![Field::Letter('Y')]].concat()));
    sink(line("count", set, numbers(&[LAST])));
    sink(line("central", set, numbers(&[LAST])));
    for call in ["phase", "phaset", "comm", "imul"] {
        for (a, b) in [(LAST, 0), (0, LAST), (LAST, LAST)] {
            sink(line(call, set, numbers(&[a, b])));
        }
    }
    let state = packed(QUBITS, &any_rows(random, 1)).x;
    sink(line("act", set, vec![Field::Number(LAST), Field::Words(state)]));
    sink(line("matrix", set, numbers(&[(ROWS * words_for(ROWS)) as u64])));
    for gate in [Gate::H(LAST_QUBIT), Gate::S(LAST_QUBIT), Gate::CX(LAST_QUBIT, 0), Gate::CX(0, LAST_QUBIT)] {
        sink(line("gate", set, vec![Field::Gate(gate)]));
    }
    sink(line("write", set, numbers(&[LAST, 24_000])));
    let text = format!("X0 Z1 Y{LAST_QUBIT}").into_bytes();
    sink(line("read", set, vec![Field::Number(LAST), Field::Text(text)]));
}

fn pairs(left: &Set, right: &Set, sink: Sink) {
    sink(line("pair", left, [further(right), vec![lengths_of(right)]].concat()));
}

/// A bit in the last row that must not be there, one word too few, and a row of m: refusals, which change nothing.
fn one_past(set: &Set, right: &Set, sink: Sink) {
    let pair =
        |left: &Set, n: usize| call_on("pair", n, left, [further(right), vec![lengths_of(right)]].concat()).line();
    sink(pair(set, QUBITS - 1));
    let mut short = set.clone();
    short.z.pop();
    sink(pair(&short, QUBITS));
    sink(line("imul", set, vec![Field::Number(0), Field::Number(LAST + 1)]));
    sink(call_on("reduceall", QUBITS - 1, set, vec![Field::Number(units_for_all())]).line());
}

/// Reductions with lists, to the end and to a full log; the check of the log, with the claim as it is and with a phase changed; and the way back.
fn reductions(random: &mut Random, rows: &[Row], set: &Set, sink: Sink) {
    let (order, listed) = (random.permutation(2 * QUBITS), random.permutation(ROWS));
    let (listed, extra) = listed.split_at(ROWS - ROWS / 8);
    let lists = Lists { order: &order, listed, extra };
    let mut claimed = rows.to_vec();
    let log = reduce(&mut claimed, lists, usize::MAX).units();
    let claim = packed(QUBITS, &claimed);
    let [order, listed, extra] = [lists.order, lists.listed, lists.extra].map(|list| Field::Shorts(list.to_vec()));
    let all = || vec![order.clone(), listed.clone(), extra.clone()];
    for units in [log.len(), log.len() - 1] {
        sink(line("reduce", set, [all(), vec![Field::Number(units as u64)]].concat()));
    }
    sink(line("reduceall", set, vec![Field::Number(units_for_all())]));
    let mut other = claim.clone();
    *other.p.last_mut().expect("a phase word") ^= 1 << 63;
    for claim in [&claim, &other] {
        sink(line("check", set, [all(), vec![Field::Pairs(log.clone())], further(claim)].concat()));
    }
    sink(line("undo", &claim, vec![listed, extra, Field::Shorts(log)]));
}
