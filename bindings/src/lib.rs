//! Packed Pauli words: products with phases, commutation, row reduction with a log, the check of a log that anybody made, matrix
//! elements. The calls are those of the library Bawersun, which is proved; this crate lends them slices. It has no dependencies, allocates
//! nothing and keeps nothing.
//!
//! A row has n qubits and w = [`words`]`(n)` words: qubit q is bit q % 64 of word q / 64, its X part in x, its Z part in z; its
//! Pauli is I (0,0), X (1,0), Y (1,1) or Z (0,1) by (x,z). A [`Set`] has m rows: row r has the words from r * w up to
//! (r + 1) * w of x and of z, and a phase p, which stands for i to the p: bits 2 * (r % 32) and the next of word r / 32 of
//! phases. Bits past the last qubit and past the last row are 0.
//!
//! Every call ends with an answer or with a [`Refusal`], whatever it is given. A refused call leaves every slice as it was, but for a
//! full log.
//!
//! ```
//! use bawersun::{Lists, Reduced, SetMut, Verdict, Words};
//!
//! # fn main() -> Result<(), bawersun::Refusal> {
//! // Z0 Z1 and X0 X1, two rows of two qubits
//! let (mut x, mut z, mut phases) = ([0, 3], [3, 0], [0]);
//! let mut set = SetMut { n: 2, m: 2, x: &mut x, z: &mut z, phases: &mut phases };
//! assert!(set.as_set().commutes_with(0, 1)?);
//!
//! let mut log = [0; 8];
//! let done = set.canonicalize_all(&mut log)?;
//! assert_eq!(done, Reduced { entries: 3, pivots: 2 });
//!
//! // whoever has the rows as they were, the log and the claim can check it
//! let mut start = SetMut { n: 2, m: 2, x: &mut [0, 3], z: &mut [3, 0], phases: &mut [0] };
//! let lists = Lists { order: &[0, 1, 2, 3], listed: &[0, 1], extra: &[] };
//! let claimed = Words { x: &x, z: &z, phases: &phases };
//! assert_eq!(start.check(lists, &log[..2 * done.entries], claimed)?, Verdict::Yes);
//! # Ok(())
//! # }
//! ```
#![deny(unsafe_code, missing_docs)]

mod elements;
mod files;
mod refusal;
mod rows;
mod sys;
mod words_of_64;

pub use elements::*;
pub use files::*;
pub use refusal::Refusal;
pub use rows::*;
pub use words_of_64::*;

/// The limit of n of a set.
pub const MAX_QUBITS: usize = 4096;
/// The limit of m of a set.
pub const MAX_ROWS: usize = 4096;
/// The bytes of the longest text of a row.
pub const MAX_TEXT: usize = 23_465;
/// The limit of n of terms, which is at least 1.
pub const MAX_TERM_QUBITS: usize = 64;
/// The limit of terms.
pub const MAX_TERMS: usize = 65_536;
/// The limit of the words of a [`State`].
pub const MAX_STATES: usize = 256;

/// The words of a row of n qubits.
pub const fn words(n: usize) -> usize {
    n.div_ceil(64)
}

/// The phase words of m rows.
pub const fn phase_words(m: usize) -> usize {
    m.div_ceil(32)
}
