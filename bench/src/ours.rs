//! The calls of the crate `bawersun` on the bench's sets: what comes back as a number, 0 for done, else the refusal's.

use bawersun::{Gate, Lists, Refusal, SetMut, State, Terms, Verdict, Words, WordsMut};

use crate::rows::{Operator, Set, States, WholeOperator};

/// 0 for done.
fn number<T>(answer: Result<T, Refusal>) -> u8 {
    answer.map_or_else(Refusal::number, |_| 0)
}

/// A set that is read.
pub fn lent(set: &Set) -> bawersun::Set<'_> {
    bawersun::Set { n: set.n, m: set.m, x: &set.x, z: &set.z, phases: &set.phases }
}

/// A set that is changed.
pub fn changed(set: &mut Set) -> SetMut<'_> {
    SetMut { n: set.n, m: set.m, x: &mut set.x, z: &mut set.z, phases: &mut set.phases }
}

fn further(set: &Set) -> Words<'_> {
    Words { x: &set.x, z: &set.z, phases: &set.phases }
}

pub fn compatibility_matrix(set: &Set, out: &mut [u64]) -> u8 {
    number(lent(set).compatibility_matrix(out))
}

pub fn cmpnts_mul_pairwise(left: &Set, right: &Set, out: &mut Set, clashes: &mut [u16]) -> u8 {
    let out = WordsMut { x: &mut out.x, z: &mut out.z, phases: &mut out.phases };
    number(lent(left).cmpnts_mul_pairwise(further(right), out, clashes))
}

pub fn imul(set: &mut Set, a: usize, b: usize) -> u8 {
    number(changed(set).imul(a, b))
}

/// H of a qubit.
pub fn conj_h(set: &mut Set, q: usize) -> u8 {
    number(changed(set).conj_clifford(Gate::H(q)))
}

/// S of a qubit.
pub fn conj_s(set: &mut Set, q: usize) -> u8 {
    number(changed(set).conj_clifford(Gate::S(q)))
}

/// Controlled-X of a control and a target.
pub fn conj_cx(set: &mut Set, control: usize, target: usize) -> u8 {
    number(changed(set).conj_clifford(Gate::CX(control, target)))
}

/// The number, the entries and the pivots.
pub fn canonicalize_all(set: &mut Set, log: &mut [u16]) -> (u8, usize, usize) {
    match changed(set).canonicalize_all(log) {
        Ok(done) => (0, done.entries, done.pivots),
        Err(Refusal::LogFull(entries)) => (8, entries, 0),
        Err(refusal) => (refusal.number(), 0, 0),
    }
}

/// What stands for a verdict other than yes, beside the refusal numbers.
pub const DIFFERS: u8 = 252;
pub const BAD_ENTRY: u8 = 253;
pub const NOT_REDUCED: u8 = 254;

/// A log and the rows that it is to lead to, with the lists of the reduction.
#[derive(Clone, Copy)]
pub struct Claim<'a> {
    pub order: &'a [u16],
    pub listed: &'a [u16],
    pub extra: &'a [u16],
    pub log: &'a [u16],
    pub rows: &'a Set,
}

/// The number, 0 for yes, and the place that the verdict names, else 0.
pub fn check(set: &mut Set, claim: &Claim) -> (u8, usize) {
    let lists = Lists { order: claim.order, listed: claim.listed, extra: claim.extra };
    match changed(set).check(lists, claim.log, further(claim.rows)) {
        Ok(Verdict::Yes) => (0, 0),
        Ok(Verdict::BadEntry(place)) => (BAD_ENTRY, place),
        Ok(Verdict::Differs(place)) => (DIFFERS, place),
        Ok(Verdict::NotReduced) => (NOT_REDUCED, 0),
        Err(refusal) => (refusal.number(), 0),
    }
}

/// The number, and the real and imaginary part of the sum.
pub fn mat_elem(op: &Operator, bra: u64, ket: u64) -> (u8, f64, f64) {
    let terms = Terms { n: op.n, x: &op.x, z: &op.z, re: &op.re, im: &op.im };
    match bawersun::mat_elem_cmpnts_from_presorted(terms, bra, ket) {
        Ok(sum) => {
            let (re, im) = sum.expect("a block");
            (0, re, im)
        }
        Err(refusal) => (refusal.number(), 0.0, 0.0),
    }
}

fn state(states: &States) -> State<'_> {
    State { words: &states.words, re: &states.re, im: &states.im }
}

/// The number, and the real and imaginary part of the sum over all pairs.
pub fn mat_elem_of_states(op: &WholeOperator, bra: &States, ket: &States) -> (u8, i64, i64) {
    let terms = Terms { n: op.n, x: &op.x, z: &op.z, re: &op.re, im: &op.im };
    match bawersun::mat_elem_from_presorted(terms, state(bra), state(ket)) {
        Ok((re, im)) => (0, re, im),
        Err(refusal) => (refusal.number(), 0, 0),
    }
}
