//! The inputs: random rows and terms, and the same in the Rust's containers.

use std::collections::HashMap;

use num_complex::Complex64;
use oracle::container::coeffs::complex_sign::{ComplexSign, ComplexSignVec};
use oracle::container::coeffs::traits::NumReprVec;
use oracle::container::word_iters::WordIters;
use oracle::qubit::mode::Qubits;
use oracle::qubit::pauli::cmpnt_major::terms::Terms;
use oracle::qubit::state::cmpnt_list::CmpntList as StateList;
use oracle::qubit::state::terms::Terms as StateTerms;

use crate::fields::rows;
use crate::model::{phase_at, phase_words};
use crate::random::Random;

/// A row set as it lies in memory: m rows of n qubits, phases two bits each.
#[derive(Clone, PartialEq)]
pub struct Set {
    pub n: usize,
    pub m: usize,
    pub x: Vec<u64>,
    pub z: Vec<u64>,
    pub phases: Vec<u64>,
}

impl Set {
    /// m random rows of n qubits, n a multiple of 64.
    pub fn random(random: &mut Random, n: usize, m: usize) -> Self {
        assert_eq!(n % 64, 0);
        let mut words = || (0..m * n / 64).map(|_| random.word()).collect::<Vec<_>>();
        let (x, z) = (words(), words());
        let phases = (0..m).map(|_| random.below(4) as u8).collect::<Vec<_>>();
        Self { n, m, x, z, phases: phase_words(&phases) }
    }

    /// The same rows for the Rust.
    pub fn terms(&self) -> Terms<ComplexSign> {
        let mut phases = ComplexSignVec::default();
        (0..self.m).for_each(|r| phases.push(ComplexSign(phase_at(&self.phases, r))));
        Terms::from((rows(self.n, self.m, &self.x, &self.z), phases))
    }
}

/// Terms of one word each, X never falling.
pub struct Operator {
    pub n: usize,
    pub x: Vec<u64>,
    pub z: Vec<u64>,
    pub re: Vec<f64>,
    pub im: Vec<f64>,
}

impl Operator {
    /// Random terms of 64 qubits, in blocks of `block` terms with the same X.
    pub fn random(random: &mut Random, terms: usize, block: usize) -> Self {
        let mut x = (0..terms / block).flat_map(|_| vec![random.word(); block]).collect::<Vec<_>>();
        x.sort_unstable();
        let z = (0..terms).map(|_| random.word()).collect();
        let mut parts = || (0..terms).map(|_| random.word() as i64 as f64).collect::<Vec<_>>();
        let (re, im) = (parts(), parts());
        Self { n: 64, x, z, re, im }
    }

    /// The same terms for the Rust, with the map of block starts that it takes.
    pub fn terms(&self) -> (Terms<Complex64>, HashMap<u64, usize>) {
        let coeffs = self.re.iter().zip(&self.im).map(|(re, im)| Complex64::new(*re, *im)).collect();
        let mut blocks = HashMap::new();
        self.x.iter().enumerate().for_each(|(i, word)| {
            blocks.entry(*word).or_insert(i);
        });
        (Terms::from((rows(self.n, self.x.len(), &self.x, &self.z), coeffs)), blocks)
    }
}

fn complex(re: &[i32], im: &[i32]) -> Vec<Complex64> {
    re.iter().zip(im).map(|(re, im)| Complex64::new(*re as f64, *im as f64)).collect()
}

/// Whole numbers from -100 to 100.
fn parts(random: &mut Random, count: usize) -> Vec<i32> {
    (0..count).map(|_| (random.word() % 201) as i32 - 100).collect()
}

/// Terms with whole coefficients.
pub struct WholeOperator {
    pub n: usize,
    pub x: Vec<u64>,
    pub z: Vec<u64>,
    pub re: Vec<i32>,
    pub im: Vec<i32>,
}

impl WholeOperator {
    /// Terms of 64 qubits whose X words are the first numbers, `block` terms each.
    pub fn random(random: &mut Random, terms: usize, block: usize) -> Self {
        let x = (0..terms).map(|i| (i / block) as u64).collect();
        let z = (0..terms).map(|_| random.word()).collect();
        Self { n: 64, x, z, re: parts(random, terms), im: parts(random, terms) }
    }

    pub fn terms(&self) -> (Terms<Complex64>, HashMap<u64, usize>) {
        let mut blocks = HashMap::new();
        self.x.iter().enumerate().for_each(|(i, word)| {
            blocks.entry(*word).or_insert(i);
        });
        (Terms::from((rows(self.n, self.x.len(), &self.x, &self.z), complex(&self.re, &self.im))), blocks)
    }
}

/// Basis states with whole coefficients.
pub struct States {
    pub words: Vec<u64>,
    pub re: Vec<i32>,
    pub im: Vec<i32>,
}

impl States {
    pub fn random(random: &mut Random, words: Vec<u64>) -> Self {
        let count = words.len();
        Self { words, re: parts(random, count), im: parts(random, count) }
    }

    pub fn terms(&self, n: usize) -> StateTerms<Complex64> {
        let mut list = StateList::new(Qubits::from_count(n));
        self.words.iter().for_each(|word| list.push_u64it([*word].into_iter()));
        StateTerms::from((list, complex(&self.re, &self.im)))
    }
}
