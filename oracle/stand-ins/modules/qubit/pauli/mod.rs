//! Stand-in: names the given files of this folder.
pub mod cmpnt_major;
pub mod mode_major;
pub mod springs;
