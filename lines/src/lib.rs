//! The lines of docs/CALLS.md and what they hold, without a dependency.

pub mod gate;
pub mod limits;
pub mod line;
pub mod random;
pub mod rows;
