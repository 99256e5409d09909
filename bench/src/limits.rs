//! Both limits at once: 4,096 rows of 4,096 qubits through the exported functions, compared with the Rust wherever it has
//! the call, with times, the stack that each call takes, and the refusals one past the limits.

use std::hint::black_box;

use bawersun::Lists;
use oracle::container::coeffs::complex_sign::ComplexSign;
use oracle::qubit::pauli::cmpnt_major::terms::{AsViewMut, Terms};

use crate::fields;
use crate::model::{phase_words_for, PHASES};
use crate::ours::{self, Claim, BAD_ENTRY, DIFFERS, NOT_REDUCED};
use crate::random::Random;
use crate::rows::Set;
use crate::stack::{taken, LEAST};
use crate::table::{self, line, side, time};
use crate::{agree, size, text};

const QUBITS: usize = 4096;
const ROWS: usize = 4096;
const COLUMNS: usize = 2 * QUBITS;
const RUNS: usize = 3;

pub fn run() {
    let mut random = Random::of(6, 0);
    table::header(&format!("{RUNS} runs of each side"));
    reduction(&Set::random(&mut random, QUBITS / 4, ROWS));
    let (left, right) = (Set::random(&mut random, QUBITS, ROWS), Set::random(&mut random, QUBITS, ROWS));
    let last = last_ones();
    for set in [&left, &last] {
        matrix(set);
        pairwise(set, &right);
        in_place(set);
        reduction(set);
    }
    println!();
    stacks(&left, &right);
    println!();
    refusals(&right);
}

/// Rows that the last qubit of the last two rows alone keeps from being the identity.
fn last_ones() -> Set {
    let words = ROWS * QUBITS / 64;
    let mut set =
        Set { n: QUBITS, m: ROWS, x: vec![0; words], z: vec![0; words], phases: vec![!0; phase_words_for(ROWS)] };
    set.x[words - 1] = 1 << 63;
    set.z[words - 1 - QUBITS / 64] = 1 << 63;
    set
}

fn matrix(set: &Set) {
    let name = "compatibility_matrix";
    let m = set.m;
    let rust = set.terms().word_iters;
    let mut out = vec![!0; m * m.div_ceil(64)];
    assert_eq!(ours::compatibility_matrix(set, &mut out), 0);
    let matrix = rust.compatibility_matrix();
    (0..m).for_each(|i| same(name, out[i * m.div_ceil(64)..(i + 1) * m.div_ceil(64)] == *matrix[i].to_vec()));
    line(
        name,
        &size(set),
        RUNS,
        side(1, || time(|| assert_eq!(ours::compatibility_matrix(black_box(set), &mut out), 0))),
        side(1, || time(|| drop(black_box(black_box(&rust).compatibility_matrix())))),
        vec![],
    );
}

fn pairwise(left: &Set, right: &Set) {
    let name = "cmpnts_mul_pairwise";
    let (rust_left, rust_right) = (left.terms().word_iters, right.terms().word_iters);
    let (mut out, mut clashes) = (blank(left), vec![!0u16; ROWS]);
    assert_eq!(ours::cmpnts_mul_pairwise(left, right, &mut out, &mut clashes), 0);
    agree(name, text(&out), fields::set_text(&fields::products_of_terms(left.terms(), &right.terms())));
    same("the clashes", clashes == clashing(left, right));
    line(
        name,
        &size(left),
        RUNS,
        side(1, || time(|| assert_eq!(ours::cmpnts_mul_pairwise(left, right, &mut out, &mut clashes), 0))),
        side(1, || time(|| drop(black_box(rust_left.cmpnts_mul_pairwise(black_box(&rust_right)).unwrap())))),
        vec![],
    );
}

/// The qubits at which rows of the same number hold differing Paulis other than I; the Rust does not give it.
fn clashing(left: &Set, right: &Set) -> Vec<u16> {
    let w = left.n / 64;
    let word = |i: usize| ((left.x[i] & right.z[i]) ^ (left.z[i] & right.x[i])).count_ones() as u16;
    (0..left.m).map(|r| (r * w..(r + 1) * w).map(word).sum()).collect()
}

/// Each row times the next one, all around.
fn in_place(set: &Set) {
    let name = "imul";
    let m = set.m;
    let (mut ours, mut rust) = (set.clone(), set.terms());
    let sweep = |set: &mut Set| (0..m).for_each(|i| assert_eq!(ours::imul(set, black_box(i), (i + 1) % m), 0));
    let rust_sweep = |set: &mut Terms<ComplexSign>| (0..m).for_each(|i| set.imul(black_box(i), (i + 1) % m));
    sweep(&mut ours);
    rust_sweep(&mut rust);
    agree(name, text(&ours), fields::set_text(&rust));
    line(
        name,
        &size(set),
        RUNS,
        side(m, || time(|| sweep(black_box(&mut ours)))),
        side(m, || time(|| rust_sweep(black_box(&mut rust)))),
        vec![],
    );
}

/// The reduction with a log of the needed length, with one entry less, and the check of the log.
fn reduction(set: &Set) {
    let name = "canonicalize_all";
    let m = set.m;
    let (mut done, mut rust) = (set.clone(), set.terms());
    let mut log = vec![0; 2 * m * (2 * set.n).min(m)];
    let (code, entries, t) = ours::canonicalize_all(&mut done, &mut log);
    assert_eq!(code, 0);
    log.truncate(2 * entries);
    let pairs = rust.canonicalize_all();
    same(name, log.chunks(2).map(|pair| (pair[0] as usize, pair[1] as usize)).eq(pairs.iter().copied()));
    agree(name, text(&done), fields::set_text(&rust));
    println!("# {}: {entries} entries, {t} pivots", size(set));
    let start = set.terms();
    line(
        name,
        &size(set),
        RUNS,
        side(1, || {
            let (mut rows, mut out) = (set.clone(), vec![!0; 2 * entries]);
            let time = time(|| assert_eq!(ours::canonicalize_all(black_box(&mut rows), &mut out), (0, entries, t)));
            same(name, out == log && rows == done);
            time
        }),
        side(1, || {
            let mut rows = start.clone();
            time(|| drop(black_box(black_box(&mut rows).canonicalize_all())))
        }),
        vec![],
    );
    one_short(set, &log);
    checked(set, &done, &log);
}

/// A log with room for one entry less: refusal 8, the capacity, and the rows and the log after that many entries.
fn one_short(set: &Set, log: &[u16]) {
    let mut rows = set.clone();
    let mut out = vec![!0; log.len() - 1];
    let room = out.len() / 2;
    assert_eq!(ours::canonicalize_all(&mut rows, &mut out), (8, room, 0));
    let mut replayed = set.terms();
    log[..2 * room].chunks(2).for_each(|pair| replayed.imul(pair[0] as usize, pair[1] as usize));
    same("the log", out[..2 * room] == log[..2 * room] && out[2 * room] == !0);
    agree("a full log", text(&rows), fields::set_text(&replayed));
}

/// The Rust has no checker: beside ours stands its replay of the log, a product for each entry.
fn checked(set: &Set, done: &Set, log: &[u16]) {
    let (order, listed) = whole(set);
    let claim = Claim { order: &order, listed: &listed, extra: &[], log, rows: done };
    let start = set.terms();
    line(
        "check; the Rust: a replay",
        &size(set),
        RUNS,
        side(1, || {
            let mut rows = set.clone();
            let time = time(|| assert_eq!(ours::check(black_box(&mut rows), &claim), (0, 0)));
            same("the working rows", rows == *done);
            time
        }),
        side(1, || {
            let mut rows = start.clone();
            time(|| log.chunks(2).for_each(|pair| black_box(&mut rows).imul(pair[0] as usize, pair[1] as usize)))
        }),
        vec![],
    );
    verdicts(set, done, &claim);
}

/// All columns, and all rows.
fn whole(set: &Set) -> (Vec<u16>, Vec<u16>) {
    ((0..2 * set.n as u16).collect(), (0..set.m as u16).collect())
}

/// What the last row, the last entry, the last column and a row number of m change in the verdict.
fn verdicts(set: &Set, done: &Set, claim: &Claim) {
    let last = set.m - 1;
    let mut other = done.clone();
    other.phases[last / PHASES] ^= 1 << (2 * (last % PHASES));
    assert_eq!(ours::check(&mut set.clone(), &Claim { rows: &other, ..*claim }), (DIFFERS, last));
    let mut bits = done.clone();
    *bits.z.last_mut().expect("a word") ^= 1 << 63;
    assert_eq!(ours::check(&mut set.clone(), &Claim { rows: &bits, ..*claim }), (DIFFERS, last));
    let mut log = claim.log.to_vec();
    let units = log.len();
    log[units - 2] = set.m as u16;
    let mut rows = set.clone();
    assert_eq!(ours::check(&mut rows, &Claim { log: &log, ..*claim }), (BAD_ENTRY, units / 2 - 1));
    same("the rows at a bad entry", rows == *set);
    assert_eq!(ours::check(&mut set.clone(), &Claim { log: &[], rows: set, ..*claim }).0, NOT_REDUCED);
}

fn blank(like: &Set) -> Set {
    let ones = |words: &[u64]| vec![!0; words.len()];
    Set { n: like.n, m: like.m, x: ones(&like.x), z: ones(&like.z), phases: ones(&like.phases) }
}

fn same(name: &str, yes: bool) {
    agree(name, yes.to_string(), true.to_string());
}

// ---- the stack

/// The stack alone.
pub fn stack() {
    let mut random = Random::of(6, 0);
    let mut set = || Set::random(&mut random, QUBITS, ROWS);
    stacks(&set(), &set());
}

fn stacks(left: &Set, right: &Set) {
    println!(
        "stack that a call at both limits takes, its callers' frames not counted; {LEAST} bytes stand for less, too"
    );
    println!();
    let told = |name: &str, bytes: usize| println!("| {name} | {} bytes |", bytes.max(LEAST));
    println!("| call | stack |");
    println!("|---|---:|");
    let mut out = vec![0; ROWS * ROWS.div_ceil(64)];
    told("compatibility_matrix", taken(|| _ = ours::compatibility_matrix(left, &mut out)));
    let (mut third, mut clashes) = (blank(left), vec![0; ROWS]);
    told("cmpnts_mul_pairwise", taken(|| _ = ours::cmpnts_mul_pairwise(left, right, &mut third, &mut clashes)));
    let mut rows = left.clone();
    told("imul", taken(|| _ = ours::imul(&mut rows, ROWS - 1, 0)));
    let mut log = vec![0; 2000];
    told("canonicalize_all", taken(|| _ = ours::canonicalize_all(&mut rows, &mut log)));
    let (order, listed) = whole(left);
    let claim = Claim { order: &order, listed: &listed, extra: &[], log: &log, rows: left };
    told("check", taken(|| _ = ours::check(&mut rows, &claim)));
    let lists = Lists { order: &order, listed: &listed, extra: &listed };
    let mut units = vec![0; 2000];
    told("canonicalize", taken(|| _ = ours::changed(&mut rows).canonicalize(lists, &mut units)));
    told("undo", taken(|| _ = ours::changed(&mut rows).undo(&listed, &[], &log)));
    told("conj_clifford, CX", taken(|| _ = ours::conj_cx(&mut rows, 0, QUBITS - 1)));
    told("phase_of_mul_by_table", taken(|| _ = ours::lent(&rows).phase_of_mul_by_table(0, ROWS - 1)));
}

// ---- refusals

/// One past each limit, and at the last number of each kind.
fn refusals(set: &Set) {
    let columns = |n: usize, m: usize| {
        let words = m * n.div_ceil(64);
        Set { n, m, x: vec![0; words], z: vec![0; words], phases: vec![0; phase_words_for(m)] }
    };
    for (n, m, number) in [(QUBITS + 1, 1, 1), (1, ROWS + 1, 2), (QUBITS + 1, ROWS + 1, 1), (QUBITS, ROWS + 1, 2)] {
        all_calls(&columns(n, m), number);
    }
    let mut short = set.clone();
    short.x.pop();
    all_calls(&short, 3);
    let mut spare = columns(QUBITS - 1, ROWS);
    *spare.z.last_mut().expect("a word") = 1 << 63;
    all_calls(&spare, 4);
    for bit in [62, 63] {
        let mut phase = columns(QUBITS, ROWS - 1);
        *phase.phases.last_mut().expect("a phase word") = 1 << bit;
        all_calls(&phase, 5);
    }
    let mut short = set.clone();
    short.phases.pop();
    all_calls(&short, 3);
    let mut rows = set.clone();
    assert_eq!(ours::imul(&mut rows, ROWS, 0), 6);
    assert_eq!(ours::imul(&mut rows, 0, ROWS), 6);
    let (order, listed) = whole(set);
    let claim = Claim { order: &order, listed: &listed, extra: &[], log: &[], rows: set };
    let more = |list: &[u16], number: usize| [list, &[number as u16]].concat();
    let (column, row, twice) = (more(&order, COLUMNS), more(&listed, ROWS), more(&listed, ROWS - 1));
    let again = more(&order, COLUMNS - 1);
    assert_eq!(ours::check(&mut rows, &Claim { order: &column, ..claim }).0, 6);
    assert_eq!(ours::check(&mut rows, &Claim { listed: &row, ..claim }).0, 6);
    assert_eq!(ours::check(&mut rows, &Claim { extra: &row, ..claim }).0, 6);
    assert_eq!(ours::check(&mut rows, &Claim { listed: &twice, ..claim }).0, 7);
    assert_eq!(ours::check(&mut rows, &Claim { order: &again, log: &[0], ..claim }).0, 15);
    assert_eq!(ours::check(&mut rows, &Claim { log: &[0], ..claim }).0, 9);
    same("the rows at a refusal", rows == *set);
    println!("refusals 1 to 9 and 15 at the limits and one past them: as they should be, nothing changed");
}

/// Every call refuses the set with this number and changes nothing.
fn all_calls(set: &Set, number: u8) {
    let m = set.m;
    let mut out = vec![7; m * m.div_ceil(64)];
    assert_eq!(ours::compatibility_matrix(set, &mut out), number);
    same("the matrix at a refusal", out.iter().all(|word| *word == 7));
    let (mut third, mut clashes) = (blank(set), vec![7; m]);
    assert_eq!(ours::cmpnts_mul_pairwise(set, set, &mut third, &mut clashes), number);
    same("the third set at a refusal", third == blank(set) && clashes.iter().all(|count| *count == 7));
    let mut rows = set.clone();
    assert_eq!(ours::imul(&mut rows, 0, 0), number);
    let mut log = vec![7; 2];
    assert_eq!(ours::canonicalize_all(&mut rows, &mut log).0, number);
    let claim = Claim { order: &[], listed: &[], extra: &[], log: &[], rows: set };
    assert_eq!(ours::check(&mut rows, &claim).0, number);
    same("the rows at a refusal", rows == *set && log == [7; 2]);
}
