//! A Clifford gate with its qubits, as a line names it.

#[derive(Clone, Copy, Debug, PartialEq)]
pub enum Gate {
    H(u64),
    S(u64),
    CX(u64, u64),
}

/// The fields of a gate on a line.
pub fn parsed<'a>(words: &mut impl Iterator<Item = &'a str>, number: impl Fn(&str) -> Option<u64>) -> Option<Gate> {
    match words.next()? {
        "h" => Some(Gate::H(number(words.next()?)?)),
        "s" => Some(Gate::S(number(words.next()?)?)),
        "cx" => Some(Gate::CX(number(words.next()?)?, number(words.next()?)?)),
        _ => None,
    }
}

impl Gate {
    pub fn text(self) -> String {
        match self {
            Gate::H(q) => format!("h {q}"),
            Gate::S(q) => format!("s {q}"),
            Gate::CX(c, t) => format!("cx {c} {t}"),
        }
    }

    /// The control stands before the target.
    pub fn qubits(self) -> Vec<u64> {
        match self {
            Gate::H(q) | Gate::S(q) => vec![q],
            Gate::CX(c, t) => vec![c, t],
        }
    }

    pub fn one_qubit_twice(self) -> bool {
        matches!(self, Gate::CX(c, t) if c == t)
    }
}
