//! Stand-in for two traits of term lists; only compiled.

use crate::container::coeffs::traits::NumRepr;
use crate::container::word_iters::WordIters;

pub trait InsertU64It<C: NumRepr> {
    fn insert_u64it(&mut self, iter: impl Iterator<Item = u64> + Clone, c: C) -> Option<usize>;
}

pub trait TransformCoeffs<T: WordIters, InpC: NumRepr, OutC: NumRepr> {
    type Output;
}
