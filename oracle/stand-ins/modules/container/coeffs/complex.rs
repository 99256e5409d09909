//! Stand-in: complex numbers as coefficients. The matrix elements lean on `ZERO`, on the representation of a phase
//! (1, i, -1, -i exactly), and through num-complex on its product and sum.

use num_complex::Complex64;

use crate::container::coeffs::complex_sign::ComplexSign;
use crate::container::coeffs::traits::{AnyNumRepr, ComplexSigned, FieldElem, NumRepr, Signed, Unrepresentable};

fn of_phase(phase: ComplexSign) -> Complex64 {
    match phase.0 & 3 {
        0 => Complex64::new(1.0, 0.0),
        1 => Complex64::new(0.0, 1.0),
        2 => Complex64::new(-1.0, 0.0),
        _ => Complex64::new(0.0, -1.0),
    }
}

impl From<Complex64> for AnyNumRepr {
    fn from(value: Complex64) -> Self {
        Self::Complex(value)
    }
}

impl Signed for Complex64 {}

impl ComplexSigned for Complex64 {
    fn mul_by_i(&self) -> Self {
        Complex64::new(-self.im, self.re)
    }
}

impl NumRepr for Complex64 {
    type Vector = Vec<Complex64>;
    const ONE: Self = Complex64::new(1.0, 0.0);

    fn conj(&self) -> Self {
        Complex64::new(self.re, -self.im)
    }

    fn try_represent_any(value: AnyNumRepr) -> Result<Self, Unrepresentable> {
        Ok(match value {
            AnyNumRepr::Unity(_) => <Self as NumRepr>::ONE,
            AnyNumRepr::Sign(x) => Complex64::new(if x.0 { -1.0 } else { 1.0 }, 0.0),
            AnyNumRepr::ComplexSign(x) => of_phase(x),
            AnyNumRepr::Whole(x) => Complex64::new(x as f64, 0.0),
            AnyNumRepr::Real(x) => Complex64::new(x, 0.0),
            AnyNumRepr::Complex(x) => x,
        })
    }

    fn ipow(&mut self, exp: i32) {
        *self = self.powi(exp);
    }

    fn parse(s: &str) -> Result<Self, Unrepresentable> {
        s.trim().parse().map_err(|_| Unrepresentable::new::<Self, _>(&s))
    }
}

impl FieldElem for Complex64 {
    const ZERO: Self = Complex64::new(0.0, 0.0);
    const TWO: Self = Complex64::new(2.0, 0.0);
    const HALF: Self = Complex64::new(0.5, 0.0);
    const SQRT2: Self = Complex64::new(std::f64::consts::SQRT_2, 0.0);
    const ISQRT2: Self = Complex64::new(std::f64::consts::FRAC_1_SQRT_2, 0.0);

    fn scaled_complex(&self, complex: Complex64) -> Complex64 {
        *self * complex
    }
    fn real_part_is_significant(&self, atol: f64) -> bool {
        self.re.abs() > atol
    }
    fn imag_part_is_significant(&self, atol: f64) -> bool {
        self.im.abs() > atol
    }
    fn from_real(v: f64) -> Self {
        Complex64::new(v, 0.0)
    }
    fn try_from_complex(v: Complex64) -> Result<Self, Unrepresentable> {
        Ok(v)
    }
    fn is_close(&self, other: Self, rtol: f64, atol: f64) -> bool {
        (*self - other).norm() <= atol + rtol * other.norm()
    }
    fn magnitude(&self) -> f64 {
        self.norm()
    }
    fn complex_conj(&self) -> Self {
        Complex64::new(self.re, -self.im)
    }
    fn complex_part(v: Complex64) -> Self {
        v
    }
}
