//! The limits in C of ../limits.c, where there are any: each is named and does one call's inner work on the same rows.

use crate::model::phase_at;
use crate::rows::{Operator, Set};

/// Why there are none, in one line.
#[cfg(not(limits))]
pub const NONE: Option<&str> = Some("no limits in C: they want x86-64 and a C compiler, cc");
#[cfg(limits)]
pub const NONE: Option<&str> = None;

/// Rows with a byte for each exponent, as the C has them.
#[derive(Clone)]
pub struct Rows {
    n: usize,
    x: Vec<u64>,
    z: Vec<u64>,
    exponents: Vec<u8>,
}

impl Rows {
    pub fn of(set: &Set) -> Self {
        Self {
            n: set.n,
            x: set.x.clone(),
            z: set.z.clone(),
            exponents: (0..set.m).map(|r| phase_at(&set.phases, r)).collect(),
        }
    }

    pub fn are(&self, set: &Set) -> bool {
        let other = Self::of(set);
        self.x == other.x && self.z == other.z && self.exponents == other.exponents
    }
}

/// A block of an operator's terms, and the ket.
#[derive(Clone, Copy)]
pub struct Block {
    pub ket: u64,
    pub first: usize,
    pub last: usize,
}

pub type Matrix = fn(&Set, &mut [u64]);
pub type Pairwise = fn(&Set, &Set, &mut Set);
pub type InPlace = fn(&mut Rows);
pub type Gate = fn(&mut Rows, usize, usize);
pub type Reduction = fn(&mut Rows, &mut [u16]) -> usize;
pub type Replay = fn(&mut Rows, &[u16]);
pub type Element = fn(&Operator, Block) -> (f64, f64);

#[cfg(not(limits))]
mod ways {
    use super::*;
    pub const MATRIX: [(&str, Matrix); 0] = [];
    pub const PAIRWISE: [(&str, Pairwise); 0] = [];
    pub const IN_PLACE: [(&str, InPlace); 0] = [];
    pub const GATES: [(&str, Gate); 0] = [];
    pub const REDUCTION: [(&str, Reduction); 0] = [];
    pub const REPLAY: [(&str, Replay); 0] = [];
    pub const ELEMENT: [(&str, Element); 0] = [];
}

#[cfg(limits)]
mod ways {
    use super::*;

    pub const MATRIX: [(&str, Matrix); 2] = [("half of the pairs", half), ("tables of 2^8, half", tables)];
    pub const PAIRWISE: [(&str, Pairwise); 1] = [("the XORs alone", xor)];
    pub const IN_PLACE: [(&str, InPlace); 1] = [("the products", in_place)];
    pub const GATES: [(&str, Gate); 3] = [("conj_clifford, H", h), ("conj_clifford, S", s), ("conj_clifford, CX", cx)];
    pub const REDUCTION: [(&str, Reduction); 2] = [("by the rule", by_rule), ("tabled", tabled)];
    pub const REPLAY: [(&str, Replay); 1] = [("the products of the log", replay)];
    pub const ELEMENT: [(&str, Element); 1] = [("tests by words, and the sum", element)];

    extern "C" {
        fn limit_half(n: usize, m: usize, x: *const u64, z: *const u64, out: *mut u64);
        fn limit_tables(n: usize, m: usize, x: *const u64, z: *const u64, out: *mut u64);
        fn limit_xor(
            n: usize,
            m: usize,
            lx: *const u64,
            lz: *const u64,
            rx: *const u64,
            rz: *const u64,
            ox: *mut u64,
            oz: *mut u64,
        );
        fn limit_in_place(n: usize, m: usize, x: *mut u64, z: *mut u64, p: *mut u8);
        fn limit_h(n: usize, m: usize, x: *mut u64, z: *mut u64, p: *mut u8, q: usize);
        fn limit_s(n: usize, m: usize, x: *mut u64, z: *mut u64, p: *mut u8, q: usize);
        fn limit_cx(n: usize, m: usize, x: *mut u64, z: *mut u64, p: *mut u8, control: usize, target: usize);
        fn limit_replay(n: usize, m: usize, x: *mut u64, z: *mut u64, p: *mut u8, log: *const u16, entries: usize);
        fn limit_by_rule(n: usize, m: usize, x: *mut u64, z: *mut u64, p: *mut u8, log: *mut u16) -> usize;
        fn limit_tabled(n: usize, m: usize, x: *mut u64, z: *mut u64, p: *mut u8, log: *mut u16) -> usize;
        fn limit_element(
            n: usize,
            m: usize,
            x: *const u64,
            z: *const u64,
            re: *const f64,
            im: *const f64,
            ket: u64,
            first: usize,
            last: usize,
            sum: *mut f64,
        ) -> i32;
    }

    fn half(set: &Set, out: &mut [u64]) {
        unsafe { limit_half(set.n, set.m, set.x.as_ptr(), set.z.as_ptr(), out.as_mut_ptr()) }
    }

    fn tables(set: &Set, out: &mut [u64]) {
        unsafe { limit_tables(set.n, set.m, set.x.as_ptr(), set.z.as_ptr(), out.as_mut_ptr()) }
    }

    fn xor(left: &Set, right: &Set, out: &mut Set) {
        let (l, r) = (left, right);
        let m = l.m;
        let (ox, oz) = (out.x.as_mut_ptr(), out.z.as_mut_ptr());
        unsafe { limit_xor(l.n, m, l.x.as_ptr(), l.z.as_ptr(), r.x.as_ptr(), r.z.as_ptr(), ox, oz) }
    }

    fn in_place(s: &mut Rows) {
        let m = s.exponents.len();
        unsafe { limit_in_place(s.n, m, s.x.as_mut_ptr(), s.z.as_mut_ptr(), s.exponents.as_mut_ptr()) }
    }

    // H and S are given one qubit only.
    fn h(s: &mut Rows, q: usize, _: usize) {
        let m = s.exponents.len();
        unsafe { limit_h(s.n, m, s.x.as_mut_ptr(), s.z.as_mut_ptr(), s.exponents.as_mut_ptr(), q) }
    }

    fn s(s: &mut Rows, q: usize, _: usize) {
        let m = s.exponents.len();
        unsafe { limit_s(s.n, m, s.x.as_mut_ptr(), s.z.as_mut_ptr(), s.exponents.as_mut_ptr(), q) }
    }

    fn cx(s: &mut Rows, control: usize, target: usize) {
        let m = s.exponents.len();
        unsafe { limit_cx(s.n, m, s.x.as_mut_ptr(), s.z.as_mut_ptr(), s.exponents.as_mut_ptr(), control, target) }
    }

    fn replay(s: &mut Rows, log: &[u16]) {
        let (m, entries) = (s.exponents.len(), log.len() / 2);
        let (x, z, p) = (s.x.as_mut_ptr(), s.z.as_mut_ptr(), s.exponents.as_mut_ptr());
        unsafe { limit_replay(s.n, m, x, z, p, log.as_ptr(), entries) }
    }

    fn by_rule(s: &mut Rows, log: &mut [u16]) -> usize {
        let m = s.exponents.len();
        let (x, z, p) = (s.x.as_mut_ptr(), s.z.as_mut_ptr(), s.exponents.as_mut_ptr());
        unsafe { limit_by_rule(s.n, m, x, z, p, log.as_mut_ptr()) }
    }

    // It writes one entry past those that count.
    fn tabled(s: &mut Rows, log: &mut [u16]) -> usize {
        let m = s.exponents.len();
        let (x, z, p) = (s.x.as_mut_ptr(), s.z.as_mut_ptr(), s.exponents.as_mut_ptr());
        unsafe { limit_tabled(s.n, m, x, z, p, log.as_mut_ptr()) }
    }

    fn element(op: &Operator, b: Block) -> (f64, f64) {
        let mut sum = [0.0; 2];
        let (x, z, re, im) = (op.x.as_ptr(), op.z.as_ptr(), op.re.as_ptr(), op.im.as_ptr());
        let m = op.x.len();
        let code = unsafe { limit_element(op.n, m, x, z, re, im, b.ket, b.first, b.last, sum.as_mut_ptr()) };
        assert_eq!(code, 0);
        (sum[0], sum[1])
    }
}

pub use ways::*;
