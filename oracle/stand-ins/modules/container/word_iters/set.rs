//! Stand-in for sets of words, found by going through them; only compiled.

use crate::container::map::Map;
use crate::container::word_iters::{ElemRef, WordIters};

pub struct View<'a, T: WordIters> {
    pub word_iters: &'a T,
    pub map: &'a Map,
}

pub struct ViewMut<'a, T: WordIters> {
    pub word_iters: &'a mut T,
    pub map: &'a mut Map,
}

pub trait AsView<T: WordIters> {
    fn words(&self) -> &T;

    fn lookup(&self, u64it: impl Iterator<Item = u64> + Clone) -> Option<usize> {
        (0..self.words().len()).find(|i| self.words().elem_u64it(*i).eq(u64it.clone()))
    }
}

impl<T: WordIters> AsView<T> for View<'_, T> {
    fn words(&self) -> &T {
        self.word_iters
    }
}

impl<T: WordIters> AsView<T> for ViewMut<'_, T> {
    fn words(&self) -> &T {
        self.word_iters
    }
}

pub trait AsViewMut<T: WordIters>: AsView<T> {
    fn words_mut(&mut self) -> &mut T;

    fn insert_u64it_or_get_index(&mut self, u64it: impl Iterator<Item = u64> + Clone) -> (usize, bool) {
        match self.lookup(u64it.clone()) {
            Some(i) => (i, false),
            None => {
                self.words_mut().push_u64it(u64it);
                (self.words().len() - 1, true)
            }
        }
    }

    fn insert_or_get_index(&mut self, elem: ElemRef<T>) -> (usize, bool) {
        self.insert_u64it_or_get_index(elem.get_u64it())
    }

    fn drop(&mut self, index: usize) -> bool {
        let found = index < self.words().len();
        if found {
            self.words_mut().pop_and_swap(index);
        }
        found
    }

    fn clear(&mut self) {
        self.words_mut().clear();
    }
}

impl<T: WordIters> AsViewMut<T> for ViewMut<'_, T> {
    fn words_mut(&mut self) -> &mut T {
        self.word_iters
    }
}
