//! Calls on one row, on two rows or on one qubit, and undo: timed by a sweep over the rows of a set, of which both sides' answers are compared first.

use std::fmt::Debug;
use std::hint::black_box;

use bawersun::{Pauli, Undone};
use oracle::container::coeffs::complex_sign::ComplexSign;
use oracle::container::coeffs::traits::{NumRepr, NumReprVec};
use oracle::container::traits::{Elements, MutRefElements, RefElements};
use oracle::container::word_iters::WordIters;
use oracle::qubit::mode::{PauliMatrix, Qubits};
use oracle::qubit::pauli::cmpnt_major::cmpnt_list::CmpntList;
use oracle::qubit::pauli::cmpnt_major::terms::{AsViewMut, Terms};
use oracle::qubit::state::cmpnt_list::CmpntList as StateList;
use oracle::qubit::traits::{PauliWordMutRef, PauliWordRef};

use crate::ours::{changed, lent};
use crate::rows::Set;
use crate::table::{asked, line, side, time, RUNS};
use crate::{agree, fields, ours, size, text};

/// What is expected of every call here.
const DONE: &str = "nothing is refused";

/// How many calls a run is at least.
const CALLS: usize = 4096;

/// The Paulis that are set, ours and the Rust's.
const OURS: [Pauli; 4] = [Pauli::I, Pauli::X, Pauli::Y, Pauli::Z];
const PAULIS: [PauliMatrix; 4] = [PauliMatrix::I, PauliMatrix::X, PauliMatrix::Y, PauliMatrix::Z];

/// The qubit that is read or set in row r.
fn qubit(set: &Set, r: usize) -> usize {
    (r * 37 + 5) % set.n
}

/// Calls that read.
pub fn reading(set: &Set) {
    let m = set.m;
    let rows = &set.terms().word_iters;
    let next = |r: usize| (r + 1) % m;
    swept(
        "get_qubit",
        set,
        |r| lent(set).get_qubit(r, qubit(set, r)).expect(DONE) as usize,
        |r| rows.get_elem_ref(r).get_pauli(qubit(set, r)).unwrap() as usize,
    );
    swept(
        "count",
        set,
        |r| lent(set).count(r, Pauli::Y).expect(DONE) as usize,
        |r| rows.get_elem_ref(r).count(PauliMatrix::Y),
    );
    swept("phase_of_mul", set, |r| lent(set).phase_of_mul(r, next(r)).expect(DONE), |r| phase(rows, r, next(r)));
    swept(
        "commutes_with",
        set,
        |r| lent(set).commutes_with(r, next(r)).expect(DONE),
        |r| {
            let (a, b) = rows.get_pair_refs(r, next(r));
            a.commutes_with(b)
        },
    );
    let mut out = vec![0; 6 * set.n];
    let same = (0..m).all(|r| lent(set).fmt_elem(r, &mut out).expect(DONE) == rows.fmt_elem(r));
    agree("fmt_elem", same.to_string(), true.to_string());
    swept("fmt_elem", set, |r| lent(set).fmt_elem(r, &mut out).expect(DONE).len(), |r| rows.fmt_elem(r).len());
}

fn phase(rows: &CmpntList, a: usize, b: usize) -> u8 {
    let (a, b) = rows.get_pair_refs(a, b);
    a.phase_of_mul(b).0 & 3
}

/// Whether a row commutes with every row: in a set of which all do, so that no side stops early.
pub fn central(set: &Set) {
    let mut set = set.clone();
    set.x.fill(0);
    let rows = &set.terms().word_iters;
    swept(
        "belongs_to_centralizer",
        &set,
        |r| lent(&set).belongs_to_centralizer(r).expect(DONE),
        |r| rows.belongs_to_centralizer(r),
    );
}

/// A sweep over all rows by each side: answers compared, then times.
fn swept<T: PartialEq + Debug>(
    name: &str,
    set: &Set,
    mut ours: impl FnMut(usize) -> T,
    mut rust: impl FnMut(usize) -> T,
) {
    if !asked(name) {
        return;
    }
    let m = set.m;
    let same = (0..m).all(|r| ours(r) == rust(r));
    agree(name, same.to_string(), true.to_string());
    // these two take microseconds a call
    let slow = ["belongs_to_centralizer", "fmt_elem"].contains(&name);
    let sweeps = if slow { 1 } else { CALLS.div_ceil(m) };
    line(
        name,
        &size(set),
        if slow { crate::runs(m) } else { RUNS },
        side(sweeps * m, || time(|| (0..sweeps * m).for_each(|i| _ = black_box(ours(black_box(i % m)))))),
        side(sweeps * m, || time(|| (0..sweeps * m).for_each(|i| _ = black_box(rust(black_box(i % m)))))),
        vec![],
    );
}

/// A qubit of each row set.
pub fn setting(set: &Set) {
    let name = "set_qubit";
    if !asked(name) {
        return;
    }
    let m = set.m;
    let (mut ours, mut rust) = (set.clone(), set.terms());
    let pauli = |r: usize| r % 4;
    let sweep = |set: &mut Set| {
        (0..m).for_each(|r| changed(set).set_qubit(black_box(r), (r * 37 + 5) % 64, OURS[pauli(r)]).expect(DONE))
    };
    let rust_sweep = |set: &mut Terms<ComplexSign>| {
        (0..m).for_each(|r| {
            let mut row = set.word_iters.get_elem_mut_ref(black_box(r));
            row.set_pauli((r * 37 + 5) % 64, PAULIS[pauli(r)]).unwrap();
        });
    };
    sweep(&mut ours);
    rust_sweep(&mut rust);
    agree(name, text(&ours), fields::set_text(&rust));
    let sweeps = CALLS.div_ceil(m);
    line(
        name,
        &size(set),
        RUNS,
        side(sweeps * m, || time(|| (0..sweeps).for_each(|_| sweep(black_box(&mut ours))))),
        side(sweeps * m, || time(|| (0..sweeps).for_each(|_| rust_sweep(black_box(&mut rust))))),
        vec![],
    );
}

/// Each row acts on one state, one after another.
pub fn acting(set: &Set) {
    let name = "imul_state";
    if !asked(name) {
        return;
    }
    let m = set.m;
    let rows = &set.terms().word_iters;
    let start = set.z[..set.n / 64].to_vec();
    let mut state = start.clone();
    let mut ket = StateList::new(Qubits::from_count(set.n));
    ket.push_u64it(start.iter().copied());
    let mut sweep =
        || (0..m).map(|r| lent(set).imul_state(black_box(r), &mut state).expect(DONE) as usize).sum::<usize>();
    let mut rust_sweep = || {
        (0..m)
            .map(|r| (ket.get_elem_mut_ref(0).imul_by_op(rows.get_elem_ref(black_box(r))).0 & 3) as usize)
            .sum::<usize>()
    };
    agree(name, sweep().to_string(), rust_sweep().to_string());
    let sweeps = CALLS.div_ceil(m);
    line(
        name,
        &size(set),
        RUNS,
        side(sweeps * m, || time(|| (0..sweeps).for_each(|_| _ = black_box(sweep())))),
        side(sweeps * m, || time(|| (0..sweeps).for_each(|_| _ = black_box(rust_sweep())))),
        vec![],
    );
    agree(name, fields::hex(state.into_iter()), fields::hex(ket.elem_u64it(0)));
}

/// The log of a reduction walked back. The Rust has no such call: beside ours stand its products, by the sources with their phases turned round.
pub fn undo(set: &Set) {
    let name = "undo; the Rust: its products";
    if !asked(name) {
        return;
    }
    let m = set.m;
    let mut log = vec![0; 2 * m * m.min(2 * set.n)];
    let mut done = set.clone();
    let (code, entries, _) = ours::canonicalize_all(&mut done, &mut log);
    assert_eq!(code, 0);
    log.truncate(2 * entries);
    let listed = (0..m as u16).collect::<Vec<_>>();
    let back = |rows: &mut Terms<ComplexSign>| {
        for pair in log.chunks(2).rev() {
            let (target, source) = (pair[0] as usize, pair[1] as usize);
            let own = rows.coeffs.get_unchecked(source);
            rows.coeffs.set_unchecked(source, own.conj());
            rows.imul(target, source);
            rows.coeffs.set_unchecked(source, own);
        }
    };
    let (mut ours, mut rust) = (done.clone(), done.terms());
    assert_eq!(changed(&mut ours).undo(&listed, &[], &log), Ok(Undone::Done));
    back(&mut rust);
    agree(name, text(&ours), fields::set_text(&rust));
    agree(name, text(&ours), text(set));
    let start = done.terms();
    line(
        name,
        &size(set),
        crate::runs(m),
        side(1, || {
            let mut rows = done.clone();
            time(|| assert_eq!(changed(black_box(&mut rows)).undo(&listed, &[], &log), Ok(Undone::Done)))
        }),
        side(1, || {
            let mut rows = start.clone();
            time(|| back(black_box(&mut rows)))
        }),
        vec![],
    );
}
