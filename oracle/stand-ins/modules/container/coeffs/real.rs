//! Stand-in: real numbers as coefficients, and vectors of real or complex ones. The matrix elements read such a
//! vector; real coefficients are only compiled.

use num_complex::Complex64;

use crate::container::coeffs::traits::{
    AnyNumRepr, FieldElem, NewUnitsWithLen, NumRepr, NumReprVec, Signed, Unrepresentable,
};
use crate::container::traits::{Elements, NewWithLen};

impl From<f64> for AnyNumRepr {
    fn from(value: f64) -> Self {
        Self::Real(value)
    }
}

impl Signed for f64 {}

impl NumRepr for f64 {
    type Vector = Vec<f64>;
    const ONE: Self = 1.0;

    fn try_represent_any(value: AnyNumRepr) -> Result<Self, Unrepresentable> {
        match value {
            AnyNumRepr::Complex(x) => Self::try_from_complex(x),
            AnyNumRepr::ComplexSign(x) if x.0 & 1 == 1 => Err(Unrepresentable::new::<Self, _>(&x)),
            other => Complex64::try_represent_any(other).map(|x| x.re),
        }
    }

    fn ipow(&mut self, exp: i32) {
        *self = self.powi(exp);
    }

    fn parse(s: &str) -> Result<Self, Unrepresentable> {
        s.trim().parse().map_err(|_| Unrepresentable::new::<Self, _>(&s))
    }
}

impl FieldElem for f64 {
    const ZERO: Self = 0.0;
    const TWO: Self = 2.0;
    const HALF: Self = 0.5;
    const SQRT2: Self = std::f64::consts::SQRT_2;
    const ISQRT2: Self = std::f64::consts::FRAC_1_SQRT_2;

    fn scaled_complex(&self, complex: Complex64) -> Complex64 {
        complex * *self
    }
    fn real_part_is_significant(&self, atol: f64) -> bool {
        self.abs() > atol
    }
    fn imag_part_is_significant(&self, _: f64) -> bool {
        false
    }
    fn from_real(v: f64) -> Self {
        v
    }
    fn try_from_complex(v: Complex64) -> Result<Self, Unrepresentable> {
        if v.im == 0.0 {
            Ok(v.re)
        } else {
            Err(Unrepresentable::new::<Self, _>(&v))
        }
    }
    fn is_close(&self, other: Self, rtol: f64, atol: f64) -> bool {
        (self - other).abs() <= atol + rtol * other.abs()
    }
    fn magnitude(&self) -> f64 {
        self.abs()
    }
    fn complex_conj(&self) -> Self {
        *self
    }
    fn complex_part(v: Complex64) -> Self {
        v.re
    }
}

impl<C: FieldElem> Elements for Vec<C> {
    fn len(&self) -> usize {
        self.as_slice().len()
    }
}

impl<C: FieldElem> NewWithLen for Vec<C> {
    fn new_with_len(n: usize) -> Self {
        vec![C::default(); n]
    }
}

impl<C: FieldElem> NewUnitsWithLen for Vec<C> {
    fn new_units_with_len(n: usize) -> Self {
        vec![C::ONE; n]
    }
}

impl<C: FieldElem> NumReprVec for Vec<C> {
    type Element = C;

    fn get_unchecked(&self, index: usize) -> C {
        self[index]
    }
    fn set_unchecked(&mut self, index: usize, value: C) {
        self[index] = value;
    }
    fn resize(&mut self, n: usize) {
        Vec::resize(self, n, C::default());
    }
    fn push_default(&mut self) {
        Vec::push(self, C::default());
    }
}
