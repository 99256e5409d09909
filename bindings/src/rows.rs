//! Sets of rows, and the calls over them.

use crate::refusal::given;
use crate::{sys, Refusal};

/// A Pauli of one qubit.
#[derive(Clone, Copy, Debug, PartialEq, Eq, Hash)]
pub enum Pauli {
    /// The identity.
    I = 0,
    /// X, whose bits (x,z) are (1,0).
    X = 1,
    /// Y, whose bits are (1,1).
    Y = 2,
    /// Z, whose bits are (0,1).
    Z = 3,
}

/// The Paulis by number.
const PAULIS: [Pauli; 4] = [Pauli::I, Pauli::X, Pauli::Y, Pauli::Z];

/// A gate, with its qubits.
#[derive(Clone, Copy, Debug, PartialEq, Eq, Hash)]
pub enum Gate {
    /// H of a qubit: X and Z are exchanged, Y becomes -Y.
    H(usize),
    /// S of a qubit: X becomes Y, Y becomes -X, Z stays.
    S(usize),
    /// Controlled-X of a control and a target.
    CX(usize, usize),
}

/// A set that is read: m rows of n qubits.
#[derive(Clone, Copy, Debug)]
pub struct Set<'a> {
    /// The number of qubits.
    pub n: usize,
    /// The number of rows.
    pub m: usize,
    /// X words, m * [`words`](crate::words)`(n)` of them.
    pub x: &'a [u64],
    /// Z words, as many.
    pub z: &'a [u64],
    /// Phase words, [`phase_words`](crate::phase_words)`(m)` of them.
    pub phases: &'a [u64],
}

/// A set that is changed.
#[derive(Debug)]
pub struct SetMut<'a> {
    /// The number of qubits.
    pub n: usize,
    /// The number of rows.
    pub m: usize,
    /// X words, m * [`words`](crate::words)`(n)` of them.
    pub x: &'a mut [u64],
    /// Z words, as many.
    pub z: &'a mut [u64],
    /// Phase words, [`phase_words`](crate::phase_words)`(m)` of them.
    pub phases: &'a mut [u64],
}

/// The words of a further set that is read; its n and m are those of the call.
#[derive(Clone, Copy, Debug)]
pub struct Words<'a> {
    /// X words.
    pub x: &'a [u64],
    /// Z words.
    pub z: &'a [u64],
    /// Phase words.
    pub phases: &'a [u64],
}

/// The words of a further set that is written, whatever stood there; its n and m are those of the call.
#[derive(Debug)]
pub struct WordsMut<'a> {
    /// X words.
    pub x: &'a mut [u64],
    /// Z words.
    pub z: &'a mut [u64],
    /// Phase words.
    pub phases: &'a mut [u64],
}

/// The lists of a reduction. X of qubit q is column q, Z of qubit q column n + q.
#[derive(Clone, Copy, Debug)]
pub struct Lists<'a> {
    /// Columns, each once.
    pub order: &'a [u16],
    /// Rows that pivots come from, each once.
    pub listed: &'a [u16],
    /// Rows that are cleared too and are never a pivot; repeats and listed ones are allowed.
    pub extra: &'a [u16],
}

/// What a reduction did.
#[derive(Clone, Copy, Debug, PartialEq, Eq)]
pub struct Reduced {
    /// The entries of the log: two units each, the row that was multiplied and the row that it was multiplied by.
    pub entries: usize,
    /// The number of pivots.
    pub pivots: usize,
}

/// What [`SetMut::check`] says of a log that is not refused.
#[derive(Clone, Copy, Debug, PartialEq, Eq)]
pub enum Verdict {
    /// The log leads to the claimed rows, and these are reduced.
    Yes,
    /// This entry, the first such one, is no product of two listed rows or of an extra row by a listed one.
    BadEntry(usize),
    /// The log leads to another row than the claimed one at this number, the first such one.
    Differs(usize),
    /// The log leads to the claimed rows, which are not reduced.
    NotReduced,
}

/// What [`SetMut::undo`] did with a log that is not refused.
#[derive(Clone, Copy, Debug, PartialEq, Eq)]
pub enum Undone {
    /// The rows are those that the log started from.
    Done,
    /// Nothing: this entry, the first such one, is no product of two listed rows or of an extra row by a listed one.
    BadEntry(usize),
}

/// What comes back for verdicts that are not yes.
const DIFFERS: u8 = 252;
const BAD_ENTRY: u8 = 253;
const NOT_REDUCED: u8 = 254;

/// What comes back for a full log.
const LOG_FULL: u8 = 8;

fn reduced(number: u8, entries: usize, pivots: usize) -> Result<Reduced, Refusal> {
    match number {
        LOG_FULL => Err(Refusal::LogFull(entries)),
        _ => given(number, Reduced { entries, pivots }),
    }
}

impl<'a> Set<'a> {
    /// The Pauli at a qubit of a row. Refusals: `Qubits` to `TooLarge`.
    ///
    /// ```
    /// # use bawersun::{Pauli, Set};
    /// let set = Set { n: 2, m: 1, x: &[1], z: &[3], phases: &[0] };
    /// assert_eq!(set.get_qubit(0, 0), Ok(Pauli::Y));
    /// assert_eq!(set.get_qubit(0, 2), Err(bawersun::Refusal::TooLarge));
    /// ```
    pub fn get_qubit(self, row: usize, qubit: usize) -> Result<Pauli, Refusal> {
        let mut pauli = 0;
        let number = sys::bawersun_get_qubit(self.n, self.m, self.x, self.z, self.phases, row, qubit, &mut pauli);
        given(number, PAULIS[pauli as usize])
    }

    /// How many of the n qubits of a row hold a Pauli. Refusals: `Qubits` to `TooLarge`.
    ///
    /// ```
    /// # use bawersun::{Pauli, Set};
    /// let set = Set { n: 70, m: 1, x: &[1, 2], z: &[0, 0], phases: &[0] };
    /// assert_eq!(set.count(0, Pauli::X), Ok(2));
    /// assert_eq!(set.count(0, Pauli::I), Ok(68));
    /// ```
    pub fn count(self, row: usize, pauli: Pauli) -> Result<u64, Refusal> {
        let mut count = 0;
        let number = sys::bawersun_count(self.n, self.m, self.x, self.z, self.phases, row, pauli as u8, &mut count);
        given(number, count)
    }

    /// The exponent of i, 0 to 3, of the product of row a by row b, without the rows' own phases. Refusals: `Qubits` to `TooLarge`.
    ///
    /// ```
    /// # use bawersun::Set;
    /// // X and Y: XY is i Z, YX is -i Z
    /// let set = Set { n: 1, m: 2, x: &[1, 1], z: &[0, 1], phases: &[0] };
    /// assert_eq!((set.phase_of_mul(0, 1), set.phase_of_mul(1, 0)), (Ok(1), Ok(3)));
    /// ```
    pub fn phase_of_mul(self, a: usize, b: usize) -> Result<u8, Refusal> {
        let mut exponent = 0;
        let number = sys::bawersun_phase_of_mul(self.n, self.m, self.x, self.z, self.phases, a, b, &mut exponent);
        given(number, exponent)
    }

    /// The same answer as [`phase_of_mul`](Set::phase_of_mul), by look-ups, for chips that have no instruction for counting ones.
    ///
    /// ```
    /// # use bawersun::Set;
    /// let set = Set { n: 1, m: 2, x: &[1, 1], z: &[0, 1], phases: &[0] };
    /// assert_eq!(set.phase_of_mul_by_table(0, 1), Ok(1));
    /// ```
    pub fn phase_of_mul_by_table(self, a: usize, b: usize) -> Result<u8, Refusal> {
        let Set { n, m, x, z, phases } = self;
        let mut exponent = 0;
        let number = sys::bawersun_phase_of_mul_by_table(n, m, x, z, phases, a, b, &mut exponent);
        given(number, exponent)
    }

    /// Whether rows a and b commute. Refusals: `Qubits` to `TooLarge`.
    ///
    /// ```
    /// # use bawersun::Set;
    /// // X0 X1 and Z0 Z1 commute, X0 X1 and Z0 do not
    /// let set = Set { n: 2, m: 3, x: &[3, 0, 0], z: &[0, 3, 1], phases: &[0] };
    /// assert_eq!((set.commutes_with(0, 1), set.commutes_with(0, 2)), (Ok(true), Ok(false)));
    /// ```
    pub fn commutes_with(self, a: usize, b: usize) -> Result<bool, Refusal> {
        let mut truth = 0;
        let number = sys::bawersun_commutes_with(self.n, self.m, self.x, self.z, self.phases, a, b, &mut truth);
        given(number, truth == 1)
    }

    /// Whether a row commutes with every row of its set. Refusals: `Qubits` to `TooLarge`.
    ///
    /// ```
    /// # use bawersun::Set;
    /// let set = Set { n: 2, m: 3, x: &[3, 0, 0], z: &[0, 3, 1], phases: &[0] };
    /// assert_eq!((set.belongs_to_centralizer(0), set.belongs_to_centralizer(1)), (Ok(false), Ok(true)));
    /// ```
    pub fn belongs_to_centralizer(self, row: usize) -> Result<bool, Refusal> {
        let mut truth = 0;
        let number = sys::bawersun_belongs_to_centralizer(self.n, self.m, self.x, self.z, self.phases, row, &mut truth);
        given(number, truth == 1)
    }

    /// Bit j of row i of the matrix becomes 1 exactly when rows i and j commute. The matrix has m rows of [`words`](crate::words)`(m)` words
    /// each, bit j in bit j % 64 of word j / 64; bits past the last become 0. Refusals: `Qubits` to `SparePhase`.
    ///
    /// ```
    /// # use bawersun::Set;
    /// let set = Set { n: 2, m: 3, x: &[3, 0, 0], z: &[0, 3, 1], phases: &[0] };
    /// let mut matrix = [0; 3];
    /// set.compatibility_matrix(&mut matrix)?;
    /// assert_eq!(matrix, [0b011, 0b111, 0b110]);
    /// # Ok::<(), bawersun::Refusal>(())
    /// ```
    pub fn compatibility_matrix(self, out: &mut [u64]) -> Result<(), Refusal> {
        given(sys::bawersun_compatibility_matrix(self.n, self.m, self.x, self.z, self.phases, out), ())
    }

    /// Each row times the same row of the right set goes into a third set, with its phase: the sum of theirs and of the product's.
    /// For each row the number of qubits at which the two hold differing Paulis other than I goes into `clashes`, which has m
    /// numbers. Refusals: `Qubits` to `SparePhase`.
    ///
    /// ```
    /// # use bawersun::{Set, Words, WordsMut};
    /// // i to the 3 X times i to the 2 Y is i to the 2 Z
    /// let left = Set { n: 1, m: 1, x: &[1], z: &[0], phases: &[3] };
    /// let right = Words { x: &[1], z: &[1], phases: &[2] };
    /// let (mut x, mut z, mut phases, mut clashes) = ([0], [0], [0], [0]);
    /// left.cmpnts_mul_pairwise(right, WordsMut { x: &mut x, z: &mut z, phases: &mut phases }, &mut clashes)?;
    /// assert_eq!((x, z, phases, clashes), ([0], [1], [2], [1]));
    /// # Ok::<(), bawersun::Refusal>(())
    /// ```
    pub fn cmpnts_mul_pairwise(self, right: Words, out: WordsMut, clashes: &mut [u16]) -> Result<(), Refusal> {
        let Set { n, m, x, z, phases } = self;
        let (rx, rz, rp) = (right.x, right.z, right.phases);
        let (ox, oz, op) = (out.x, out.z, out.phases);
        given(sys::bawersun_cmpnts_mul_pairwise(n, m, x, z, phases, rx, rz, rp, ox, oz, op, clashes), ())
    }

    /// A row acts on a basis state of [`words`](crate::words)`(n)` words, which is changed; the exponent of i, 0 to 3, without the row's own phase.
    /// Refusals: `Qubits` to `TooLarge`.
    ///
    /// ```
    /// # use bawersun::Set;
    /// // Y on state 1 is -i times state 0
    /// let set = Set { n: 1, m: 1, x: &[1], z: &[1], phases: &[0] };
    /// let mut state = [1];
    /// assert_eq!(set.imul_state(0, &mut state), Ok(3));
    /// assert_eq!(state, [0]);
    /// ```
    pub fn imul_state(self, row: usize, state: &mut [u64]) -> Result<u8, Refusal> {
        let Set { n, m, x, z, phases } = self;
        let mut exponent = 0;
        let number = sys::bawersun_imul_state(n, m, x, z, phases, row, state, &mut exponent);
        given(number, exponent)
    }

    /// The text of a row, such as `X0 Y3`: its Paulis other than I, by qubit, with one space between; no phase. It is written to the start
    /// of `out`; [`MAX_TEXT`](crate::MAX_TEXT) bytes hold any row's text. Refusals: `Qubits` to `TooLarge`, `Short`.
    ///
    /// ```
    /// # use bawersun::Set;
    /// let set = Set { n: 4, m: 1, x: &[0b1001], z: &[0b1000], phases: &[0] };
    /// assert_eq!(set.fmt_elem(0, &mut [0; 20]), Ok("X0 Y3"));
    /// ```
    pub fn fmt_elem(self, row: usize, out: &mut [u8]) -> Result<&str, Refusal> {
        let mut length = 0;
        let number = sys::bawersun_fmt_elem(self.n, self.m, self.x, self.z, self.phases, row, out, &mut length);
        given(number, std::str::from_utf8(&out[..length]).expect("the text is letters, digits and spaces"))
    }
}

impl SetMut<'_> {
    /// The set as one that is read.
    ///
    /// ```
    /// # use bawersun::SetMut;
    /// let set = SetMut { n: 1, m: 1, x: &mut [1], z: &mut [0], phases: &mut [0] };
    /// assert_eq!(set.as_set().commutes_with(0, 0), Ok(true));
    /// ```
    pub fn as_set(&self) -> Set<'_> {
        Set { n: self.n, m: self.m, x: self.x, z: self.z, phases: self.phases }
    }

    /// A qubit of a row becomes a Pauli; the row's phase stays. Refusals: `Qubits` to `TooLarge`.
    ///
    /// ```
    /// # use bawersun::{Pauli, SetMut};
    /// let mut set = SetMut { n: 2, m: 1, x: &mut [0], z: &mut [0], phases: &mut [0] };
    /// set.set_qubit(0, 1, Pauli::Y)?;
    /// assert_eq!((&*set.x, &*set.z), (&[2][..], &[2][..]));
    /// # Ok::<(), bawersun::Refusal>(())
    /// ```
    pub fn set_qubit(&mut self, row: usize, qubit: usize, pauli: Pauli) -> Result<(), Refusal> {
        given(sys::bawersun_set_qubit(self.n, self.m, self.x, self.z, self.phases, row, qubit, pauli as u8), ())
    }

    /// Row a becomes row a times row b, with its phase; where a is b the bits are cleared and the phase is doubled. The answer is the number
    /// of qubits at which the two rows held differing Paulis other than I. Refusals: `Qubits` to `TooLarge`.
    ///
    /// ```
    /// # use bawersun::SetMut;
    /// // X times Y is i Z
    /// let mut set = SetMut { n: 1, m: 2, x: &mut [1, 1], z: &mut [0, 1], phases: &mut [0] };
    /// assert_eq!(set.imul(0, 1), Ok(1));
    /// assert_eq!((&*set.x, &*set.z, &*set.phases), (&[0, 1][..], &[1, 1][..], &[1][..]));
    /// ```
    pub fn imul(&mut self, a: usize, b: usize) -> Result<u16, Refusal> {
        let mut clashes = 0;
        let number = sys::bawersun_imul(self.n, self.m, self.x, self.z, self.phases, a, b, &mut clashes);
        given(number, clashes)
    }

    /// Each row P becomes U P U^-1, phases included, U being the gate. Refusals: `Qubits` to `TooLarge`, `OneQubit`.
    ///
    /// ```
    /// # use bawersun::{Gate, SetMut};
    /// // H takes Y to -Y, whose exponent is 2
    /// let mut set = SetMut { n: 1, m: 1, x: &mut [1], z: &mut [1], phases: &mut [0] };
    /// set.conj_clifford(Gate::H(0))?;
    /// assert_eq!((&*set.x, &*set.z, &*set.phases), (&[1][..], &[1][..], &[2][..]));
    /// # Ok::<(), bawersun::Refusal>(())
    /// ```
    pub fn conj_clifford(&mut self, gate: Gate) -> Result<(), Refusal> {
        let SetMut { n, m, x, z, phases } = self;
        let number = match gate {
            Gate::H(q) => sys::bawersun_conj_h(*n, *m, x, z, phases, q),
            Gate::S(q) => sys::bawersun_conj_s(*n, *m, x, z, phases, q),
            Gate::CX(control, target) => sys::bawersun_conj_cx(*n, *m, x, z, phases, control, target),
        };
        given(number, ())
    }

    /// The set is reduced by the order of columns, over the listed rows; extra rows are cleared too. Each product is an entry of the log,
    /// two units: the row that was multiplied, and the row that it was multiplied by. Units past the entries stay.
    /// Refusals: `Qubits` to `TooLarge`, `RowTwice`, `ColumnTwice`, `LogFull`.
    ///
    /// ```
    /// # use bawersun::{Lists, Reduced, SetMut};
    /// // X0 and X0 X1 by X of qubit 0 alone
    /// let mut set = SetMut { n: 2, m: 2, x: &mut [1, 3], z: &mut [0, 0], phases: &mut [0] };
    /// let mut log = [0; 4];
    /// let done = set.canonicalize(Lists { order: &[0], listed: &[0, 1], extra: &[] }, &mut log)?;
    /// assert_eq!(done, Reduced { entries: 1, pivots: 1 });
    /// assert_eq!((&*set.x, &log[..2]), (&[1, 2][..], &[1, 0][..]));
    /// # Ok::<(), bawersun::Refusal>(())
    /// ```
    pub fn canonicalize(&mut self, lists: Lists, log: &mut [u16]) -> Result<Reduced, Refusal> {
        let SetMut { n, m, x, z, phases } = self;
        let Lists { order, listed, extra } = lists;
        let (mut entries, mut t) = (0, 0);
        let number = sys::bawersun_canonicalize(*n, *m, x, z, phases, order, listed, extra, log, &mut entries, &mut t);
        reduced(number, entries, t)
    }

    /// [`canonicalize`](SetMut::canonicalize) by all columns, X of each qubit and then Z, with all rows listed. It needs at most
    /// m * min(m, 2n) entries. Refusals: `Qubits` to `SparePhase`, `LogFull`.
    ///
    /// ```
    /// # use bawersun::{Refusal, SetMut};
    /// // there is no room for the one entry
    /// let mut set = SetMut { n: 2, m: 2, x: &mut [1, 3], z: &mut [0, 0], phases: &mut [0] };
    /// assert_eq!(set.canonicalize_all(&mut []), Err(Refusal::LogFull(0)));
    /// assert_eq!(set.x, [1, 3]);
    /// ```
    pub fn canonicalize_all(&mut self, log: &mut [u16]) -> Result<Reduced, Refusal> {
        let SetMut { n, m, x, z, phases } = self;
        let (mut entries, mut t) = (0, 0);
        let number = sys::bawersun_canonicalize_all(*n, *m, x, z, phases, log, &mut entries, &mut t);
        reduced(number, entries, t)
    }

    /// Whether a log, whoever made it, leads from these rows to the claimed ones, and these are reduced by the order over the listed rows.
    /// The set becomes the rows that the log leads to, but not at a refusal or a bad entry.
    /// Refusals: `Qubits` to `TooLarge`, `RowTwice`, `ColumnTwice`, `OddLog`.
    ///
    /// ```
    /// # use bawersun::{Lists, SetMut, Verdict, Words};
    /// let lists = Lists { order: &[0, 1], listed: &[0, 1], extra: &[] };
    /// let claimed = Words { x: &[1, 2], z: &[0, 0], phases: &[0] };
    /// let mut set = SetMut { n: 2, m: 2, x: &mut [1, 3], z: &mut [0, 0], phases: &mut [0] };
    /// assert_eq!(set.check(lists, &[1, 0], claimed), Ok(Verdict::Yes));
    /// assert_eq!(set.check(lists, &[0, 0], claimed), Ok(Verdict::BadEntry(0)));
    /// ```
    pub fn check(&mut self, lists: Lists, log: &[u16], claimed: Words) -> Result<Verdict, Refusal> {
        let SetMut { n, m, x, z, phases } = self;
        let Lists { order, listed, extra } = lists;
        let Words { x: cx, z: cz, phases: cp } = claimed;
        let mut place = 0;
        let number = sys::bawersun_check(*n, *m, x, z, phases, order, listed, extra, log, cx, cz, cp, &mut place);
        match number {
            BAD_ENTRY => Ok(Verdict::BadEntry(place)),
            DIFFERS => Ok(Verdict::Differs(place)),
            NOT_REDUCED => Ok(Verdict::NotReduced),
            _ => given(number, Verdict::Yes),
        }
    }

    /// The rows that a log led to become those that it started from, to every bit and phase.
    /// Refusals: `Qubits` to `TooLarge`, `RowTwice`, `OddLog`.
    ///
    /// ```
    /// # use bawersun::{SetMut, Undone};
    /// let mut set = SetMut { n: 2, m: 2, x: &mut [1, 2], z: &mut [0, 0], phases: &mut [0] };
    /// assert_eq!(set.undo(&[0, 1], &[], &[1, 0]), Ok(Undone::Done));
    /// assert_eq!(set.x, [1, 3]);
    /// ```
    pub fn undo(&mut self, listed: &[u16], extra: &[u16], log: &[u16]) -> Result<Undone, Refusal> {
        let SetMut { n, m, x, z, phases } = self;
        let mut place = 0;
        let number = sys::bawersun_undo(*n, *m, x, z, phases, listed, extra, log, &mut place);
        match number {
            BAD_ENTRY => Ok(Undone::BadEntry(place)),
            _ => given(number, Undone::Done),
        }
    }

    /// A row becomes the row whose text it is, as [`fmt_elem`](Set::fmt_elem) writes it; the row's phase stays.
    /// Refusals: `Qubits` to `TooLarge`, `NoText`.
    ///
    /// ```
    /// # use bawersun::{Refusal, SetMut};
    /// let mut set = SetMut { n: 4, m: 1, x: &mut [0], z: &mut [0], phases: &mut [0] };
    /// set.parse_elem(0, "X0 Y3")?;
    /// assert_eq!((&*set.x, &*set.z), (&[0b1001][..], &[0b1000][..]));
    /// assert_eq!(set.parse_elem(0, "X0  Y3"), Err(Refusal::NoText));
    /// # Ok::<(), bawersun::Refusal>(())
    /// ```
    pub fn parse_elem(&mut self, row: usize, text: impl AsRef<[u8]>) -> Result<(), Refusal> {
        given(sys::bawersun_parse_elem(self.n, self.m, self.x, self.z, self.phases, row, text.as_ref()), ())
    }
}
