//! Stand-in: sets of Pauli terms; only compiled.

use crate::container::coeffs::traits::NumRepr;
use crate::container::traits::EmptyFrom;
use crate::container::word_iters::term_set;
use crate::qubit::mode::Qubits;
use crate::qubit::pauli::cmpnt_major::cmpnt_list::CmpntList;
use crate::qubit::traits::QubitsBased;

pub type TermSet<C> = term_set::TermSet<CmpntList, C>;
pub type ViewMut<'a, C> = term_set::ViewMut<'a, CmpntList, C>;

impl<C: NumRepr> TermSet<C> {
    pub fn new(qubits: Qubits) -> Self {
        Self::empty_from(&CmpntList::new(qubits))
    }
}

impl<C: NumRepr> QubitsBased for ViewMut<'_, C> {
    fn qubits(&self) -> &Qubits {
        self.word_iters.qubits()
    }
}
