//! Stand-in for overlaps of states; only compiled.

use crate::container::coeffs::traits::FieldElem;
use crate::qubit::state::{term_set, terms};

pub fn vdot<C: FieldElem>(_: &term_set::View<C>, _: &terms::View<C>) -> C {
    unimplemented!("overlaps have no stand-in")
}
