//! The given Rust files and the stand-ins for the missing ones, as one library, and its answers to the lines of
//! docs/CALLS.md. build.rs lays the tree.
#![allow(warnings)]

extern crate self as oracle;

include!(concat!(env!("OUT_DIR"), "/modules.rs"));

pub mod answers;
pub mod fields;
