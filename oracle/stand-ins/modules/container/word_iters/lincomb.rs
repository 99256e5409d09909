//! Stand-in for sums of terms; only compiled.

use crate::container::coeffs::traits::{FieldElem, NumReprVec};
use crate::container::traits::RefElements;
use crate::container::word_iters::term_set::{AsViewMut, ViewMut};
use crate::container::word_iters::{terms, ElemRef, WordIters};

pub fn scaled_iadd_elem<T: WordIters, C: FieldElem>(out: &mut ViewMut<T, C>, elem: ElemRef<T>, c: C) {
    let (i, inserted) = out.insert_elem_ref_or_get_index(elem, c);
    if !inserted {
        let sum = out.coeffs.get_unchecked(i) + c;
        out.coeffs.set_unchecked(i, sum);
    }
}

pub fn iadd<T: WordIters, C: FieldElem>(out: &mut ViewMut<T, C>, other: &terms::View<T, C>) {
    for (elem, c) in other.word_iters.iter().zip(other.coeffs.iter()) {
        scaled_iadd_elem(out, elem, *c);
    }
}

pub fn isub<T: WordIters, C: FieldElem>(out: &mut ViewMut<T, C>, other: &terms::View<T, C>) {
    for (elem, c) in other.word_iters.iter().zip(other.coeffs.iter()) {
        scaled_iadd_elem(out, elem, -*c);
    }
}
