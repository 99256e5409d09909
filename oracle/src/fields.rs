//! The fields of a case, read into the Rust's own containers, and these written back.

use lines::gate::Gate;
use lines::line::Field;
use oracle::container::coeffs::complex_sign::{ComplexSign, ComplexSignVec};
use oracle::container::coeffs::traits::NumReprVec;
use oracle::container::traits::{Elements, MutRefElements, RefElements};
use oracle::qubit::clifford;
use oracle::qubit::mode::{PauliMatrix, Qubits, SymplecticPart};
use oracle::qubit::pauli::cmpnt_major::cmpnt_list::CmpntList;
use oracle::qubit::pauli::cmpnt_major::terms::Terms;
use oracle::qubit::traits::PauliWordRef;

/// The fields of a case, taken one by one. There is nothing where a field is of another kind.
pub struct Fields<'a>(pub std::slice::Iter<'a, Field>);

impl<'a> Fields<'a> {
    pub fn field(&mut self) -> Option<&'a Field> {
        self.0.next()
    }

    pub fn number(&mut self) -> Option<usize> {
        match self.field()? {
            Field::Number(v) => usize::try_from(*v).ok(),
            _ => None,
        }
    }

    pub fn word(&mut self) -> Option<u64> {
        match self.field()? {
            Field::Word(v) => Some(*v),
            _ => None,
        }
    }

    pub fn words(&mut self) -> Option<&'a [u64]> {
        match self.field()? {
            Field::Words(v) => Some(v),
            _ => None,
        }
    }

    /// A list of rows or of columns.
    pub fn places(&mut self) -> Option<Vec<usize>> {
        match self.field()? {
            Field::Shorts(v) | Field::Pairs(v) => Some(v.iter().map(|place| *place as usize).collect()),
            _ => None,
        }
    }

    pub fn ints(&mut self) -> Option<&'a [i32]> {
        match self.field()? {
            Field::Ints(v) => Some(v),
            _ => None,
        }
    }

    pub fn pauli(&mut self) -> Option<PauliMatrix> {
        match self.field()? {
            Field::Letter('I') => Some(PauliMatrix::I),
            Field::Letter('X') => Some(PauliMatrix::X),
            Field::Letter('Y') => Some(PauliMatrix::Y),
            Field::Letter('Z') => Some(PauliMatrix::Z),
            _ => None,
        }
    }

    pub fn gate(&mut self) -> Option<clifford::Gate> {
        match self.field()? {
            Field::Gate(Gate::H(q)) => Some(clifford::h(*q as usize)),
            Field::Gate(Gate::S(q)) => Some(clifford::s(*q as usize)),
            Field::Gate(Gate::CX(control, target)) => clifford::cx(*control as usize, *target as usize),
            _ => None,
        }
    }

    /// The entries of a log.
    pub fn log(&mut self) -> Option<Vec<(usize, usize)>> {
        Some(self.places()?.chunks(2).map(|pair| (pair[0], pair[1])).collect())
    }

    /// The fields X Z P as m rows with phases. A phase word holds those of 32 rows.
    pub fn set(&mut self, n: usize, m: usize) -> Option<Terms<ComplexSign>> {
        let (x, z, words) = (self.words()?, self.words()?, self.words()?);
        let mut coeffs = ComplexSignVec::default();
        (0..m).for_each(|r| coeffs.push(ComplexSign((words[r / 32] >> (2 * (r % 32)) & 3) as u8)));
        Some(Terms::from((rows(n, m, x, z), coeffs)))
    }
}

/// Rows of n qubits with these words.
pub fn rows(n: usize, m: usize, x: &[u64], z: &[u64]) -> CmpntList {
    let mut out = CmpntList::new(Qubits::from_count(n));
    out.resize(m);
    let w = n.div_ceil(64);
    for i in 0..m {
        let mut row = out.get_elem_mut_ref(i);
        row.get_x_part_slice_mut().copy_from_slice(&x[i * w..(i + 1) * w]);
        row.get_z_part_slice_mut().copy_from_slice(&z[i * w..(i + 1) * w]);
    }
    out
}

/// Column c of n qubits as the Rust names it.
pub fn column(n: usize, c: usize) -> (usize, SymplecticPart) {
    if c < n {
        (c, SymplecticPart::X)
    } else {
        (c - n, SymplecticPart::Z)
    }
}

pub fn joined<T: ToString>(items: impl Iterator<Item = T>) -> String {
    let items = items.map(|item| item.to_string()).collect::<Vec<_>>();
    if items.is_empty() {
        "-".to_string()
    } else {
        items.join(",")
    }
}

pub fn hex(words: impl Iterator<Item = u64>) -> String {
    joined(words.map(|word| format!("{word:x}")))
}

pub fn rows_text(rows: &CmpntList) -> String {
    let part = |x: bool| {
        hex((0..rows.len()).flat_map(move |i| {
            let row = rows.get_elem_ref(i);
            if x {
                row.get_x_part_slice().to_vec()
            } else {
                row.get_z_part_slice().to_vec()
            }
        }))
    };
    format!("{} {}", part(true), part(false))
}

/// The number of qubits at which row i of one list and row j of another hold differing Paulis that are not I. The Rust
/// has no such number: its rows are read qubit by qubit.
pub fn clashes(n: usize, left: &CmpntList, i: usize, right: &CmpntList, j: usize) -> usize {
    let pauli = |rows: &CmpntList, row: usize, q: usize| rows.get_elem_ref(row).get_pauli(q).expect("a qubit below n");
    let differ = |a: PauliMatrix, b: PauliMatrix| a != PauliMatrix::I && b != PauliMatrix::I && a != b;
    (0..n).filter(|q| differ(pauli(left, i, *q), pauli(right, j, *q))).count()
}

/// Exponents as phase words.
pub fn exponents_text(exponents: &[u8]) -> String {
    let word = |chunk: &[u8]| chunk.iter().rev().fold(0, |word, e| word << 2 | *e as u64);
    hex(exponents.chunks(32).map(word))
}

pub fn phases_text(phases: &ComplexSignVec) -> String {
    exponents_text(&phases.copied_iter().map(|p| p.0 & 3).collect::<Vec<_>>())
}

pub fn set_text(set: &Terms<ComplexSign>) -> String {
    format!("{} {}", rows_text(&set.word_iters), phases_text(&set.coeffs))
}

/// Each term of left times the same term of right, as many rows of as many qubits.
pub fn products_of_terms(mut left: Terms<ComplexSign>, right: &Terms<ComplexSign>) -> Terms<ComplexSign> {
    for i in 0..right.len() {
        left.get_elem_mut_ref(i).imul(right.get_elem_ref(i)).expect("the same qubits");
    }
    left
}

pub fn log_text(log: &[(usize, usize)]) -> String {
    joined(log.iter().map(|(a, b)| format!("{a}:{b}")))
}
