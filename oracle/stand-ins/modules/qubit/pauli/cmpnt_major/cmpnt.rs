//! Stand-in for a single Pauli word; only compiled.

use crate::container::errors::OutOfBounds;
use crate::container::traits::proj::BorrowMut;
use crate::container::word_iters::Elem;
use crate::qubit::mode::{PauliMatrix, Qubits};
use crate::qubit::pauli::cmpnt_major::cmpnt_list::CmpntList;
use std::collections::HashMap;

pub type PauliWord = Elem<CmpntList>;

impl Elem<CmpntList> {
    pub fn new(qubits: Qubits) -> Self {
        Self::from(&CmpntList::new(qubits))
    }

    pub fn from_vec(qubits: Qubits, paulis: Vec<PauliMatrix>) -> Result<Self, OutOfBounds> {
        let mut this = Self::new(qubits);
        this.borrow_mut().assign_vec(paulis)?;
        Ok(this)
    }

    pub fn from_map(qubits: Qubits, paulis: HashMap<usize, PauliMatrix>) -> Result<Self, OutOfBounds> {
        let mut this = Self::new(qubits);
        this.borrow_mut().assign_map(paulis)?;
        Ok(this)
    }
}
