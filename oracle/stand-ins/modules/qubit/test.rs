//! Stand-in: the Rust's own tests are not given.
