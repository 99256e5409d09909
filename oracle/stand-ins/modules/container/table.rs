//! Stand-in for the row-major storage of words below `BitMatrix`. Every answer over rows leans on it, but only for
//! keeping words where they were put. With rows of no words (n = 0) the number of rows is a choice of this stand-in:
//! it is kept apart from the words.

use std::ops::{Index, IndexMut};

use serde::{Deserialize, Serialize};

use crate::container::traits::{Elements, EmptyClone};

#[derive(Debug, Default, Hash, PartialEq, Eq, Clone, Serialize, Deserialize)]
pub struct Table {
    row_size: usize,
    n_row: usize,
    words: Vec<u64>,
}

impl Table {
    pub fn new(row_size: usize) -> Self {
        Self { row_size, n_row: 0, words: vec![] }
    }

    pub fn get_row_size(&self) -> usize {
        self.row_size
    }

    pub fn resize(&mut self, n_row: usize) {
        self.words.resize(n_row * self.row_size, 0);
        self.n_row = n_row;
    }

    pub fn clear(&mut self) {
        self.resize(0);
    }

    pub fn clear_row(&mut self, i: usize) {
        self[i].fill(0);
    }

    /// The last row takes the place of row `i`.
    pub fn pop_and_swap(&mut self, i: usize) {
        let last = self.n_row - 1;
        let size = self.row_size;
        self.words.copy_within(last * size..(last + 1) * size, i * size);
        self.resize(last);
    }

    /// Each row is cut or padded with zeros to `row_size` words.
    pub fn reformat(&mut self, row_size: usize) {
        let mut out = Self::new(row_size);
        out.resize(self.n_row);
        let kept = row_size.min(self.row_size);
        for i in 0..self.n_row {
            out[i][..kept].copy_from_slice(&self[i][..kept]);
        }
        *self = out;
    }
}

impl Elements for Table {
    fn len(&self) -> usize {
        self.n_row
    }
}

impl EmptyClone for Table {
    fn empty_clone(&self) -> Self {
        Self::new(self.row_size)
    }
}

impl Index<usize> for Table {
    type Output = [u64];
    fn index(&self, i: usize) -> &[u64] {
        assert!(i < self.n_row);
        &self.words[i * self.row_size..(i + 1) * self.row_size]
    }
}

impl IndexMut<usize> for Table {
    fn index_mut(&mut self, i: usize) -> &mut [u64] {
        assert!(i < self.n_row);
        &mut self.words[i * self.row_size..(i + 1) * self.row_size]
    }
}
