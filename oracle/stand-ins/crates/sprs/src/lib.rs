//! Stand-in for sparse matrices, which document 01 leaves out: enough for the files to compile, and nothing is
//! computed. Calling any of it stops the program.

use std::marker::PhantomData;
use std::ops::{Add, DivAssign, MulAssign, Sub};

const NONE: &str = "sparse matrices have no stand-in";

pub struct CsMat<T>(PhantomData<T>);

impl<T> CsMat<T> {
    pub fn new(_: (usize, usize), _: Vec<usize>, _: Vec<usize>, _: Vec<T>) -> Self {
        unimplemented!("{NONE}")
    }
    pub fn scale(&mut self, _: T) {
        unimplemented!("{NONE}")
    }
}

impl<T> Add for &CsMat<T> {
    type Output = CsMat<T>;
    fn add(self, _: Self) -> CsMat<T> {
        unimplemented!("{NONE}")
    }
}

impl<T> Sub for &CsMat<T> {
    type Output = CsMat<T>;
    fn sub(self, _: Self) -> CsMat<T> {
        unimplemented!("{NONE}")
    }
}

impl<T> MulAssign<T> for CsMat<T> {
    fn mul_assign(&mut self, _: T) {
        unimplemented!("{NONE}")
    }
}

impl<T> DivAssign<T> for CsMat<T> {
    fn div_assign(&mut self, _: T) {
        unimplemented!("{NONE}")
    }
}

pub struct TriMat<T>(PhantomData<T>);

impl<T> TriMat<T> {
    pub fn new(_: (usize, usize)) -> Self {
        unimplemented!("{NONE}")
    }
    pub fn add_triplet(&mut self, _: usize, _: usize, _: T) {
        unimplemented!("{NONE}")
    }
    pub fn to_csc(&self) -> CsMat<T> {
        unimplemented!("{NONE}")
    }
}
