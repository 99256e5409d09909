//! Stand-in: names the given files of this folder and the two stand-ins beside them.
pub mod complex;
pub mod complex_sign;
pub mod real;
pub mod sign;
pub mod traits;
pub mod unity;
