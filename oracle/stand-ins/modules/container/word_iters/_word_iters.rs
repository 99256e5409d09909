//! Stand-in for containers of rows of words and the handles to one row. Answers lean on `resize`, `clear_elem`,
//! `get_u64it_mut` and the two handles, which hold the container and the row's number.

use std::cmp::Ordering;
use std::collections::HashSet;
use std::fmt::Display;

use crate::container::traits::{proj, Compatible, Elements, EmptyClone, HasIndex, MutRefElements, RefElements};

pub trait WordIters: Elements + Compatible + EmptyClone {
    fn elem_u64it(&self, i: usize) -> impl Iterator<Item = u64> + Clone;
    fn elem_u64it_mut(&mut self, i: usize) -> impl Iterator<Item = &mut u64>;
    fn u64it_size(&self) -> usize;
    fn resize(&mut self, n: usize);
    fn pop_and_swap(&mut self, i: usize);

    fn fmt_elem(&self, i: usize) -> String {
        format!("{:?}", self.elem_u64it(i).collect::<Vec<_>>())
    }

    fn eq(&self, other: &Self) -> bool {
        self.compatible_with(other)
            && self.len() == other.len()
            && (0..self.len()).all(|i| self.elem_u64it(i).eq(other.elem_u64it(i)))
    }

    fn assign_elem(&mut self, i: usize, words: impl Iterator<Item = u64>) {
        self.elem_u64it_mut(i).zip(words).for_each(|(to, from)| *to = from);
    }

    fn clear_elem(&mut self, i: usize) {
        self.elem_u64it_mut(i).for_each(|word| *word = 0);
    }

    fn clear(&mut self) {
        self.resize(0);
    }

    fn push_clear(&mut self) {
        self.resize(self.len() + 1);
    }

    fn push_u64it(&mut self, words: impl Iterator<Item = u64>) {
        let i = self.len();
        self.push_clear();
        self.assign_elem(i, words);
    }

    fn pop(&mut self) {
        self.resize(self.len() - 1);
    }

    fn copy(&mut self, to: usize, from: usize) {
        let words = self.elem_u64it(from).collect::<Vec<_>>();
        self.assign_elem(to, words.into_iter());
    }

    fn swap(&mut self, i: usize, j: usize) {
        let words = self.elem_u64it(i).collect::<Vec<_>>();
        self.copy(i, j);
        self.assign_elem(j, words.into_iter());
    }

    fn select(&self, inds: impl Iterator<Item = usize>) -> Self {
        let mut out = self.empty_clone();
        inds.filter(|i| *i < self.len()).for_each(|i| out.push_u64it(self.elem_u64it(i)));
        out
    }

    fn deselect(&self, inds: impl Iterator<Item = usize>) -> Self {
        self.bipartition(inds).1
    }

    fn bipartition(&self, inds: impl Iterator<Item = usize>) -> (Self, Self) {
        let chosen = inds.collect::<HashSet<_>>();
        let (yes, no): (Vec<usize>, Vec<usize>) = (0..self.len()).partition(|i| chosen.contains(i));
        (self.select(yes.into_iter()), self.select(no.into_iter()))
    }

    fn find_duplicates(&self) -> impl Iterator<Item = usize> {
        let mut seen = HashSet::new();
        (0..self.len()).filter(move |i| !seen.insert(self.elem_u64it(*i).collect::<Vec<_>>()))
    }

    fn elem_hamming_weight(&self, i: usize) -> usize {
        self.elem_u64it(i).map(|word| word.count_ones() as usize).sum()
    }
}

pub trait HasWordIters<T: WordIters> {
    fn get_word_iters(&self) -> &T;
}

pub trait HasWordItersMut<T: WordIters>: HasWordIters<T> {
    fn get_word_iters_mut(&mut self) -> &mut T;
}

/// One row, by its container and its number.
pub struct ElemRef<'a, T: WordIters> {
    pub word_iters: &'a T,
    pub index: usize,
}

impl<'a, T: WordIters> ElemRef<'a, T> {
    pub fn get_u64it(&self) -> impl Iterator<Item = u64> + Clone + use<'a, T> {
        self.word_iters.elem_u64it(self.index)
    }
}

impl<T: WordIters> Clone for ElemRef<'_, T> {
    fn clone(&self) -> Self {
        Self { word_iters: self.word_iters, index: self.index }
    }
}

impl<T: WordIters> HasIndex for ElemRef<'_, T> {
    fn get_index(&self) -> usize {
        self.index
    }
}

impl<T: WordIters> PartialEq for ElemRef<'_, T> {
    fn eq(&self, other: &Self) -> bool {
        self.word_iters.compatible_with(other.word_iters) && self.cmp(other) == Ordering::Equal
    }
}

impl<T: WordIters> Eq for ElemRef<'_, T> {}

impl<T: WordIters> PartialOrd for ElemRef<'_, T> {
    fn partial_cmp(&self, other: &Self) -> Option<Ordering> {
        Some(self.cmp(other))
    }
}

impl<T: WordIters> Ord for ElemRef<'_, T> {
    fn cmp(&self, other: &Self) -> Ordering {
        self.get_u64it().cmp(other.get_u64it())
    }
}

impl<T: WordIters> Display for ElemRef<'_, T> {
    fn fmt(&self, f: &mut std::fmt::Formatter<'_>) -> std::fmt::Result {
        write!(f, "{}", self.word_iters.fmt_elem(self.index))
    }
}

/// One row to be written, by its container and its number.
pub struct ElemMutRef<'a, T: WordIters> {
    pub word_iters: &'a mut T,
    pub index: usize,
}

impl<T: WordIters> ElemMutRef<'_, T> {
    pub fn as_ref(&self) -> ElemRef<'_, T> {
        ElemRef { word_iters: self.word_iters, index: self.index }
    }

    pub fn get_u64it_mut(&mut self) -> impl Iterator<Item = &mut u64> {
        self.word_iters.elem_u64it_mut(self.index)
    }

    pub fn assign(&mut self, other: ElemRef<T>) {
        self.word_iters.assign_elem(self.index, other.get_u64it());
    }

    pub fn clear(&mut self) {
        self.word_iters.clear_elem(self.index);
    }
}

impl<T: WordIters> HasIndex for ElemMutRef<'_, T> {
    fn get_index(&self) -> usize {
        self.index
    }
}

impl<'a, T: WordIters + 'a> RefElements<'a> for T {
    type Output = ElemRef<'a, T>;
    fn get_elem_ref(&'a self, index: usize) -> ElemRef<'a, T> {
        ElemRef { word_iters: self, index }
    }
}

impl<'a, T: WordIters + 'a> MutRefElements<'a> for T {
    type Output = ElemMutRef<'a, T>;
    fn get_elem_mut_ref(&'a mut self, index: usize) -> ElemMutRef<'a, T> {
        ElemMutRef { word_iters: self, index }
    }
}

impl<T: WordIters> proj::ToOwned for T {
    type OwnedType = T;
    fn to_owned(&self) -> T {
        self.clone()
    }
}

/// A container of one row.
#[derive(Clone)]
pub struct Elem<T: WordIters>(pub T);

impl<T: WordIters> From<&T> for Elem<T> {
    fn from(value: &T) -> Self {
        let mut out = value.empty_clone();
        out.push_clear();
        Self(out)
    }
}

impl<T: WordIters> proj::ToOwned for Elem<T> {
    type OwnedType = Self;
    fn to_owned(&self) -> Self {
        self.clone()
    }
}

impl<'a, T: WordIters + 'a> proj::Borrow<'a> for Elem<T> {
    type RefType = ElemRef<'a, T>;
    fn borrow(&'a self) -> ElemRef<'a, T> {
        ElemRef { word_iters: &self.0, index: 0 }
    }
}

impl<'a, T: WordIters + 'a> proj::BorrowMut<'a> for Elem<T> {
    type MutRefType = ElemMutRef<'a, T>;
    fn borrow_mut(&'a mut self) -> ElemMutRef<'a, T> {
        ElemMutRef { word_iters: &mut self.0, index: 0 }
    }
}

pub mod test_defs {}
