//! Log files: a run, kept as bytes. The caller opens, writes and reads the file itself.

use crate::refusal::given;
use crate::{phase_words, sys, words, Lists, Refusal, Set, Words};

/// The six numbers in front of a log file.
#[derive(Clone, Copy, Debug, Default, PartialEq, Eq)]
pub struct Front {
    /// The number of qubits.
    pub n: usize,
    /// The number of rows.
    pub m: usize,
    /// The columns of the order.
    pub order: usize,
    /// The listed rows.
    pub listed: usize,
    /// The extra rows.
    pub extra: usize,
    /// The entries of the log, two units each.
    pub entries: usize,
}

impl Front {
    /// The bytes of the file, where they are as many as a `usize` holds.
    ///
    /// ```
    /// let front = bawersun::Front { n: 65, m: 1, order: 0, listed: 1, extra: 0, entries: 2 };
    /// assert_eq!(front.bytes(), Some(41 + 2 + 8 + 64 + 16));
    /// ```
    pub fn bytes(self) -> Option<usize> {
        let lists = self.order.checked_add(self.listed)?.checked_add(self.extra)?.checked_mul(2)?;
        let sets = self.m.checked_mul(words(self.n))?.checked_mul(32)?.checked_add(16 * phase_words(self.m))?;
        lists.checked_add(self.entries.checked_mul(4)?)?.checked_add(sets)?.checked_add(41)
    }
}

/// The outputs of [`pwl_read`]. They may be longer than what goes there; what stands past that stays.
#[derive(Debug)]
pub struct Outputs<'a> {
    /// Order, listed rows, extra rows and the log, one behind the other: order + listed + extra + 2 * entries units.
    pub units: &'a mut [u16],
    /// The starting rows' X words.
    pub x: &'a mut [u64],
    /// Their Z words.
    pub z: &'a mut [u64],
    /// Their phase words.
    pub phases: &'a mut [u64],
    /// The claimed rows' X words, Z words and phase words, one behind the other.
    pub claimed: &'a mut [u64],
}

/// The numbers in front of a file. It looks at the front and at the length alone, so n and m may still be above their limits.
/// Refusals: `NoFile` to `LeftOver`.
///
/// ```
/// assert_eq!(bawersun::pwl_open(b"PWX"), Err(bawersun::Refusal::NoFile));
/// ```
pub fn pwl_open(file: &[u8]) -> Result<Front, Refusal> {
    let mut front = Front::default();
    let Front { n, m, order, listed, extra, entries } = &mut front;
    let number = sys::bawersun_pwl_open(file, n, m, order, listed, extra, entries);
    given(number, front)
}

/// The run in a file goes into the outputs; the answer is the front. Refusals: `NoFile` to `LeftOver`; those of
/// [`check`](crate::SetMut::check), of the run in the file; `Short`.
///
/// ```
/// # use bawersun::{pwl_read, Front, Lists, Outputs, Set, Words};
/// // the reduced row X0, with an empty log, written and read back
/// let (start, claimed) = (Set { n: 1, m: 1, x: &[1], z: &[0], phases: &[0] }, Words { x: &[1], z: &[0], phases: &[0] });
/// let mut file = [0; 200];
/// let length = start.pwl_write(Lists { order: &[0], listed: &[0], extra: &[] }, &[], claimed, &mut file)?;
///
/// let (mut units, mut x, mut z, mut phases, mut rows) = ([9; 2], [9], [9], [9], [9; 3]);
/// let outputs = Outputs { units: &mut units, x: &mut x, z: &mut z, phases: &mut phases, claimed: &mut rows };
/// let front = pwl_read(&file[..length], outputs)?;
/// assert_eq!(front, Front { n: 1, m: 1, order: 1, listed: 1, extra: 0, entries: 0 });
/// assert_eq!((units, x, z, phases, rows), ([0, 0], [1], [0], [0], [1, 0, 0]));
/// # Ok::<(), bawersun::Refusal>(())
/// ```
pub fn pwl_read(file: &[u8], outputs: Outputs) -> Result<Front, Refusal> {
    let Outputs { units, x, z, phases, claimed } = outputs;
    let mut front = Front::default();
    let Front { n, m, order, listed, extra, entries } = &mut front;
    let number = sys::bawersun_pwl_read(file, units, x, z, phases, claimed, n, m, order, listed, extra, entries);
    given(number, front)
}

impl Set<'_> {
    /// The bytes of the run that starts from these rows go to the start of `out`; the answer is their number, [`Front::bytes`]. Whether
    /// the log leads to the claimed rows is not asked. Refusals: those of [`check`](crate::SetMut::check); `Short`.
    ///
    /// ```
    /// # use bawersun::{pwl_open, Lists, Set, Words};
    /// let start = Set { n: 2, m: 2, x: &[1, 3], z: &[0, 0], phases: &[0] };
    /// let claimed = Words { x: &[1, 2], z: &[0, 0], phases: &[0] };
    /// let mut out = [0; 200];
    /// let length = start.pwl_write(Lists { order: &[0, 1], listed: &[0, 1], extra: &[] }, &[1, 0], claimed, &mut out)?;
    /// assert_eq!(pwl_open(&out[..length])?.bytes(), Some(length));
    /// # Ok::<(), bawersun::Refusal>(())
    /// ```
    pub fn pwl_write(self, lists: Lists, log: &[u16], claimed: Words, out: &mut [u8]) -> Result<usize, Refusal> {
        let Set { n, m, x, z, phases } = self;
        let Lists { order, listed, extra } = lists;
        let Words { x: cx, z: cz, phases: cp } = claimed;
        let mut length = 0;
        let number =
            sys::bawersun_pwl_write(n, m, x, z, phases, order, listed, extra, log, cx, cz, cp, out, &mut length);
        given(number, length)
    }
}
