//! What a call gives instead of an answer.

use std::fmt;

/// Why a call was refused. A refused call changes nothing that was lent to it, but for [`Refusal::LogFull`]. Where several fit, the first
/// of this list is given.
#[derive(Clone, Copy, Debug, PartialEq, Eq, Hash)]
#[non_exhaustive]
pub enum Refusal {
    /// Log files: the bytes do not start with the mark P W L, or end inside it.
    NoFile,
    /// Log files: the version is not 1, or the bytes end inside it.
    OtherVersion,
    /// Log files: fewer bytes than the front says, or the bytes end inside the front.
    ShortFile,
    /// Log files: more bytes than the front says.
    LeftOver,
    /// n is above its limit; for matrix elements also 0.
    Qubits,
    /// Too many rows, terms or words of a state.
    Rows,
    /// A length does not fit n, m or another length.
    Lengths,
    /// A bit is set at qubit n or above, in a set that is read, a state or a term.
    HighBit,
    /// A phase bit past the last row is set, in a set that is read.
    SparePhase,
    /// A row of m or above, a qubit of n or above, a column of 2n or above.
    TooLarge,
    /// Control and target are the same qubit.
    OneQubit,
    /// A row stands twice among the listed ones.
    RowTwice,
    /// A column stands twice in the order.
    ColumnTwice,
    /// The log has no room for the next entry; rows and log are as after those that fitted, which is this number.
    LogFull(usize),
    /// The log that is read has an odd length.
    OddLog,
    /// An X word of the terms is below the one before.
    XFalls,
    /// A coefficient is not finite.
    Coefficient,
    /// A sum is not finite after some addition.
    Sum,
    /// A number of the sum leaves 64 bits.
    Range,
    /// The text is not that of a row of n qubits.
    NoText,
    /// The output is shorter than the text, the log file or the part of a file that goes there.
    Short,
}

use Refusal::*;

/// Every refusal with its number of RULES 9.4 and what it says, in the order in which they are tested.
const TABLE: [(Refusal, u8, &str); 21] = [
    (NoFile, 17, "the bytes are no log file"),
    (OtherVersion, 18, "the log file is of another version"),
    (ShortFile, 19, "the log file is shorter than it says"),
    (LeftOver, 20, "the log file is longer than it says"),
    (Qubits, 1, "n is above its limit, or 0 for matrix elements"),
    (Rows, 2, "too many rows, terms or words of a state"),
    (Lengths, 3, "a length does not fit"),
    (HighBit, 4, "a bit is set at qubit n or above"),
    (SparePhase, 5, "a phase bit past the last row is set"),
    (TooLarge, 6, "a row, qubit or column number is too large"),
    (OneQubit, 21, "control and target are the same qubit"),
    (RowTwice, 7, "a row is listed twice"),
    (ColumnTwice, 15, "a column stands twice in the order"),
    (LogFull(0), 8, "the log is full"),
    (OddLog, 9, "the log has an odd length"),
    (XFalls, 10, "an X word is below the one before"),
    (Coefficient, 11, "a coefficient is not finite"),
    (Sum, 12, "a sum is not finite"),
    (Range, 16, "a number of the sum leaves 64 bits"),
    (NoText, 13, "the text is not that of a row"),
    (Short, 14, "the output is too short"),
];

impl Refusal {
    /// The number that the library has for it, in RULES 9.4 and in the header for C.
    pub fn number(self) -> u8 {
        self.line().1
    }

    fn line(self) -> &'static (Refusal, u8, &'static str) {
        let kind = if let LogFull(_) = self { LogFull(0) } else { self };
        TABLE.iter().find(|line| line.0 == kind).expect("every refusal has its line")
    }

    /// The refusal of a number that came back, not 0. The archive's contract has no other number; one that comes all the same is
    /// of an archive that this crate is not made for.
    pub(crate) fn of(number: u8) -> Self {
        let found = TABLE.iter().find(|line| line.1 == number);
        found.unwrap_or_else(|| panic!("the archive says {number}, which this crate does not know")).0
    }
}

impl fmt::Display for Refusal {
    fn fmt(&self, f: &mut fmt::Formatter) -> fmt::Result {
        write!(f, "{} (refusal {})", self.line().2, self.number())
    }
}

impl std::error::Error for Refusal {}

/// An answer, or the refusal of a number other than 0.
pub(crate) fn given<T>(number: u8, answer: T) -> Result<T, Refusal> {
    match number {
        0 => Ok(answer),
        _ => Err(Refusal::of(number)),
    }
}

#[cfg(test)]
mod tests {
    use super::*;

    /// The numbers of an enum of the header, and the limits that it defines.
    #[test]
    fn the_header_has_the_same_numbers() {
        let header = include_str!("../../include/bawersun.h");
        let listed =
            header.split("enum bawersun_number {").nth(1).and_then(|text| text.split('}').next()).expect("the enum");
        let number = |line: &str| line.split(" = ").nth(1)?.split([',', ' ']).next()?.parse::<u8>().ok();
        let numbers: Vec<u8> = listed.lines().filter_map(number).filter(|number| (1..252).contains(number)).collect();
        assert_eq!(numbers, TABLE.map(|line| line.1));
        let limit = |name: &str| {
            let text = header.split(&format!("#define BAWERSUN_{name} ")).nth(1).expect("the limit");
            text.split_whitespace().next().and_then(|word| word.parse::<usize>().ok())
        };
        assert_eq!(limit("MAX_QUBITS"), Some(crate::MAX_QUBITS));
        assert_eq!(limit("MAX_ROWS"), Some(crate::MAX_ROWS));
        assert_eq!(limit("MAX_TEXT"), Some(crate::MAX_TEXT));
        assert_eq!(limit("MAX_TERM_QUBITS"), Some(crate::MAX_TERM_QUBITS));
        assert_eq!(limit("MAX_TERMS"), Some(crate::MAX_TERMS));
        assert_eq!(limit("MAX_STATES"), Some(crate::MAX_STATES));
        let version = format!("#define BAWERSUN_VERSION \"{}\"", env!("CARGO_PKG_VERSION"));
        assert!(header.contains(&version), "{version}");
    }
}
