//! The limits of document 01, for the model and the cases; what a line of `calls` holds beside them (docs/CALLS.md); and
//! what the cases ask for.

pub const QUBITS: usize = 4096;
pub const ROWS: usize = 4096;
pub const TERMS: usize = 65536;

/// The words of a state of many basis vectors.
pub const VECTORS: usize = 256;

/// Bytes of a line, its end among them.
pub const LINE: usize = 3_500_000;

/// Phase words of a set that a line has, or lends: two more than the largest set has.
pub const LINE_PHASES: usize = ROWS / 32 + 2;

/// Lent numbers of a pairwise product.
pub const LINE_ROWS: usize = ROWS + 64;

/// Words of a set, a state or an output.
pub const LINE_WORDS: usize = ROWS + 512;

/// Columns of an order, rows of a list.
pub const LINE_LIST: usize = 2 * QUBITS + 64;

/// Units of a log.
pub const LINE_LOG: usize = 140_000;

/// Terms of a matrix element.
pub const LINE_TERMS: usize = 65_600;

/// Bytes of a text that is given as a list or lent; the rest of a line is as long as the line.
pub const LINE_TEXT: usize = 24_000;

/// Words of a state of many basis vectors.
pub const LINE_VECTORS: usize = VECTORS + 64;

/// The words of a set or an output that most cases stay below.
pub const WORDS_IN_REACH: usize = 4400;

/// And the units of a log.
pub const UNITS_IN_REACH: usize = 131_074;
