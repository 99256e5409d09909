//! Stand-in: names the given files of this folder.
pub mod mode;
pub mod parse;
pub mod springs;
pub mod state_springs;
