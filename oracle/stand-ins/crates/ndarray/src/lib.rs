//! Stand-in for the dense matrices of projections and `to_matrix`; no answer goes through it.

use std::ops::{Index, IndexMut};

#[derive(Clone, Debug, PartialEq)]
pub struct Array2<T> {
    columns: usize,
    cells: Vec<T>,
}

impl<T: Clone + Default> Array2<T> {
    pub fn zeros(shape: (usize, usize)) -> Self {
        Self { columns: shape.1, cells: vec![T::default(); shape.0 * shape.1] }
    }
}

impl<T> Index<[usize; 2]> for Array2<T> {
    type Output = T;
    fn index(&self, at: [usize; 2]) -> &T {
        &self.cells[at[0] * self.columns + at[1]]
    }
}

impl<T> IndexMut<[usize; 2]> for Array2<T> {
    fn index_mut(&mut self, at: [usize; 2]) -> &mut T {
        &mut self.cells[at[0] * self.columns + at[1]]
    }
}
