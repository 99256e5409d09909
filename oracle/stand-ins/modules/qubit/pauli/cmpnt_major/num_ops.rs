//! Stand-in for number operators; only compiled.

use crate::container::coeffs::traits::FieldElem;
use crate::qubit::mode::Qubits;
use crate::qubit::pauli::cmpnt_major::term_set::TermSet;

pub fn num_op<C: FieldElem>(_: Qubits) -> TermSet<C> {
    unimplemented!("number operators have no stand-in")
}

pub fn num_op_odd_pos<C: FieldElem>(_: Qubits) -> TermSet<C> {
    unimplemented!("number operators have no stand-in")
}
