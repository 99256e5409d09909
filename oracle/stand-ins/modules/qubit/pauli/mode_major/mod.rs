//! Stand-in: names the given file of this folder.
pub mod array;
