
// Appended to a copy of num-complex where that is older than 0.4.4: the three constants that later versions have.
impl Complex<f64> {
    pub const ZERO: Self = Self::new(0.0, 0.0);
    pub const ONE: Self = Self::new(1.0, 0.0);
    pub const I: Self = Self::new(0.0, 1.0);
}
