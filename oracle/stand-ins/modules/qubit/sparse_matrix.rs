//! Stand-in: sparse matrices are left out.
