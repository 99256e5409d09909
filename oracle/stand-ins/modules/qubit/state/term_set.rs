//! Stand-in: sets of basis states with coefficients; only compiled.

use crate::container::word_iters::term_set;
use crate::qubit::state::cmpnt_list::CmpntList;

pub type View<'a, C> = term_set::View<'a, CmpntList, C>;
pub type ViewMut<'a, C> = term_set::ViewMut<'a, CmpntList, C>;
