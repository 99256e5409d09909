//! Words of 64 qubits: any words are taken, nothing is refused.

use crate::sys;

/// The exponent of i, 0 to 3, of the product of the left word by the right word: XY, YZ, ZX give 1, YX, ZY, XZ give 3, the rest 0.
/// The bits of the product are `lx ^ rx` and `lz ^ rz`.
///
/// ```
/// // X times Y is i Z
/// assert_eq!(bawersun::mul_op_op_phase_u64(1, 0, 1, 1), 1);
/// ```
pub fn mul_op_op_phase_u64(lx: u64, lz: u64, rx: u64, rz: u64) -> u64 {
    sys::mul_op_op_phase_u64(lx, lz, rx, rz)
}

/// The exponent of i, 0 to 3, of a word on the basis state r: Y on 0 gives 1, Y on 1 gives 3, Z on 1 gives 2, the rest 0. The new
/// state is `r ^ lx`.
///
/// ```
/// // Y on state 1 is -i times state 0
/// assert_eq!(bawersun::mul_op_state_phase_u64(1, 1, 1), 3);
/// ```
pub fn mul_op_state_phase_u64(lx: u64, lz: u64, r: u64) -> u64 {
    sys::mul_op_state_phase_u64(lx, lz, r)
}
