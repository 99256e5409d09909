//! Matrix elements: terms of one word with coefficients, n from 1 to 64, whose X words never fall.

use crate::refusal::given;
use crate::{sys, Refusal};

/// An operator: term i is the Pauli word of `x[i]` and `z[i]` times the coefficient of `re[i]` and `im[i]`.
#[derive(Clone, Copy, Debug)]
pub struct Terms<'a, T> {
    /// The number of qubits, 1 to [`MAX_TERM_QUBITS`](crate::MAX_TERM_QUBITS).
    pub n: usize,
    /// X words, none below the one before.
    pub x: &'a [u64],
    /// Z words.
    pub z: &'a [u64],
    /// Real parts.
    pub re: &'a [T],
    /// Imaginary parts.
    pub im: &'a [T],
}

/// A state: a list of basis states, each with a whole coefficient. A basis state may stand there more than once.
#[derive(Clone, Copy, Debug)]
pub struct State<'a> {
    /// The basis states.
    pub words: &'a [u64],
    /// Real parts.
    pub re: &'a [i32],
    /// Imaginary parts.
    pub im: &'a [i32],
}

/// What comes back where no term has the X word that is asked for.
const NO_BLOCK: u8 = 255;

fn element<T>(number: u8, sum: (T, T)) -> Result<Option<(T, T)>, Refusal> {
    match number {
        NO_BLOCK => Ok(None),
        _ => given(number, Some(sum)),
    }
}

/// The entry of the operator's matrix between two basis states, real and imaginary part: the sum over the terms whose X word is
/// `bra ^ ket`, in their order. `None` where there are none; the entry is 0 then.
///
/// Refusals: `Qubits` to `HighBit`, `XFalls`, `Coefficient`, `Sum`.
///
/// ```
/// # fn main() -> Result<(), bawersun::Refusal> {
/// // 0.5 Z + 2 X of one qubit
/// let terms = bawersun::Terms { n: 1, x: &[0, 1], z: &[1, 0], re: &[0.5, 2.0], im: &[0.0, 0.0] };
/// assert_eq!(bawersun::mat_elem_cmpnts_from_presorted(terms, 1, 1)?, Some((-0.5, 0.0)));
/// assert_eq!(bawersun::mat_elem_cmpnts_from_presorted(terms, 0, 1)?, Some((2.0, 0.0)));
/// # Ok(())
/// # }
/// ```
pub fn mat_elem_cmpnts_from_presorted(terms: Terms<f64>, bra: u64, ket: u64) -> Result<Option<(f64, f64)>, Refusal> {
    let Terms { n, x, z, re, im } = terms;
    let (mut real, mut imag) = (0.0, 0.0);
    let number = sys::bawersun_mat_elem_cmpnts_from_presorted(n, x, z, re, im, bra, ket, &mut real, &mut imag);
    element(number, (real, imag))
}

/// The same with whole coefficients; the sum is exact.
///
/// Refusals: `Qubits` to `HighBit`, `XFalls`.
///
/// ```
/// # fn main() -> Result<(), bawersun::Refusal> {
/// // Y of one qubit: from state 0 to state 1 it is i
/// let terms = bawersun::Terms { n: 1, x: &[1], z: &[1], re: &[1], im: &[0] };
/// assert_eq!(bawersun::mat_elem_cmpnts_from_presorted_whole(terms, 1, 0)?, Some((0, 1)));
/// assert_eq!(bawersun::mat_elem_cmpnts_from_presorted_whole(terms, 0, 0)?, None);
/// # Ok(())
/// # }
/// ```
pub fn mat_elem_cmpnts_from_presorted_whole(
    terms: Terms<i32>,
    bra: u64,
    ket: u64,
) -> Result<Option<(i64, i64)>, Refusal> {
    let Terms { n, x, z, re, im } = terms;
    let (mut real, mut imag) = (0, 0);
    let number = sys::bawersun_mat_elem_cmpnts_from_presorted_whole(n, x, z, re, im, bra, ket, &mut real, &mut imag);
    element(number, (real, imag))
}

/// The number <bra|operator|ket> of two states, the bra's coefficients conjugated; the sum is exact. A pair without terms adds 0.
///
/// Refusals: `Qubits` to `HighBit`, `XFalls`, `Range`.
///
/// ```
/// # fn main() -> Result<(), bawersun::Refusal> {
/// use bawersun::{mat_elem_from_presorted, State, Terms};
/// // 3 X of one qubit between states 0 and 1 together, and state 0
/// let terms = Terms { n: 1, x: &[1], z: &[0], re: &[3], im: &[0] };
/// let bra = State { words: &[0, 1], re: &[1, 2], im: &[0, 0] };
/// let ket = State { words: &[0], re: &[5], im: &[0] };
/// assert_eq!(mat_elem_from_presorted(terms, bra, ket)?, (30, 0));
/// # Ok(())
/// # }
/// ```
pub fn mat_elem_from_presorted(terms: Terms<i32>, bra: State, ket: State) -> Result<(i64, i64), Refusal> {
    let Terms { n, x, z, re, im } = terms;
    let (mut real, mut imag) = (0, 0);
    let number = sys::bawersun_mat_elem_from_presorted(
        n, x, z, re, im, bra.words, bra.re, bra.im, ket.words, ket.re, ket.im, &mut real, &mut imag,
    );
    given(number, (real, imag))
}
