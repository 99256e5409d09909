//! Stand-in: lists of basis states with coefficients.

use crate::container::coeffs::traits::NumRepr;
use crate::container::traits::EmptyFrom;
use crate::container::word_iters::terms;
use crate::qubit::mode::Qubits;
use crate::qubit::state::cmpnt_list::CmpntList;

pub type Terms<C> = terms::Terms<CmpntList, C>;
pub type View<'a, C> = terms::View<'a, CmpntList, C>;

pub trait AsView<C: NumRepr>: terms::AsView<CmpntList, C> {}
impl<C: NumRepr> AsView<C> for Terms<C> {}
impl<C: NumRepr> AsView<C> for View<'_, C> {}

impl<C: NumRepr> Terms<C> {
    pub fn new(qubits: Qubits) -> Self {
        Self::empty_from(&CmpntList::new(qubits))
    }
}
