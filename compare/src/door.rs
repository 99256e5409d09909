//! The library's answers to cases in this process, through the crate `bawersun`, as the lines of docs/CALLS.md have them. Everything that
//! is lent lies between guards. What a line does not show is looked at too: guards, slices that are only read, every slice
//! at a refusal, and what an output has past its content stay as they were lent, byte for byte. Where one does not, that is the answer.

use bawersun::*;
use lines::gate::Gate as LineGate;
use lines::line::{hexes, joined, Case, Field, M, MORE, SET};

use crate::lent::{Filling, Lent, Seen};

pub struct Rows {
    pub n: usize,
    pub m: usize,
    pub x: Lent<u64>,
    pub z: Lent<u64>,
    pub phases: Lent<u64>,
}

impl Rows {
    fn at(case: &Case, i: usize) -> Self {
        let part = |i: usize| Lent::of(case.words(i).iter().copied());
        let (n, m) = (case.number(0) as usize, case.number(M) as usize);
        Self { n, m, x: part(i), z: part(i + 1), phases: part(i + 2) }
    }

    fn lent(&self) -> Set<'_> {
        Set { n: self.n, m: self.m, x: self.x.read(), z: self.z.read(), phases: self.phases.read() }
    }

    pub fn changed(&mut self) -> SetMut<'_> {
        SetMut { n: self.n, m: self.m, x: self.x.write(), z: self.z.write(), phases: self.phases.write() }
    }

    fn further(&self) -> Words<'_> {
        Words { x: self.x.read(), z: self.z.read(), phases: self.phases.read() }
    }

    pub fn look(&self, seen: &mut Seen, changed: bool) {
        self.look_but_phases(seen, changed);
        seen.written("phases", &self.phases, changed);
    }

    fn look_but_phases(&self, seen: &mut Seen, changed: bool) {
        seen.written("x", &self.x, changed);
        seen.written("z", &self.z, changed);
    }

    fn text(&self) -> String {
        format!("{} {} {}", hexes(self.x.read()), hexes(self.z.read()), hexes(self.phases.read()))
    }
}

fn shorts(case: &Case, i: usize) -> Lent<u16> {
    Lent::of(case.shorts(i).iter().copied())
}

/// The lists of a reduction from field i on.
struct OwnLists {
    order: Lent<u16>,
    listed: Lent<u16>,
    extra: Lent<u16>,
}

impl OwnLists {
    fn at(case: &Case, i: usize) -> Self {
        Self { order: shorts(case, i), listed: shorts(case, i + 1), extra: shorts(case, i + 2) }
    }

    fn lent(&self) -> Lists<'_> {
        Lists { order: self.order.read(), listed: self.listed.read(), extra: self.extra.read() }
    }

    fn look(&self, seen: &mut Seen) {
        seen.read("order", &self.order);
        seen.read("listed", &self.listed);
        seen.read("extra", &self.extra);
    }
}

/// The line of an answer, or of a refusal.
pub fn line<T>(answer: Result<T, Refusal>, text: impl FnOnce(T) -> String) -> String {
    match answer {
        Ok(answer) => text(answer),
        Err(refusal) => format!("refuse {}", refusal.number()),
    }
}

/// The answer to a case.
pub fn answer(case: &Case) -> String {
    let mut seen = Seen::default();
    let answer = match case.call {
        "phase1" | "act1" => on_words(case),
        "elemf" => float_element(case, &mut seen),
        "elemi" => whole_element(case, &mut seen),
        "elems" => element_of_states(case, &mut seen),
        "reduce" | "reduceall" | "pwl" => reduction(case, &mut seen),
        "check" => check(case, &mut seen),
        "undo" => undo(case, &mut seen),
        "set" | "imul" | "gate" | "read" | "readx" => changing(case, &mut seen),
        "act" | "matrix" | "pair" | "write" => writing(case, &mut seen),
        _ => reading(case, &mut seen),
    };
    seen.told(answer)
}

fn on_words(case: &Case) -> String {
    let v: Vec<u64> = (0..case.fields.len()).map(|i| case.number(i)).collect();
    match case.call {
        "phase1" => format!("ok {}", mul_op_op_phase_u64(v[0], v[1], v[2], v[3])),
        _ => format!("ok {} {:x}", mul_op_state_phase_u64(v[0], v[1], v[2]), v[2] ^ v[0]),
    }
}

/// The calls that read a set and give a value.
fn reading(case: &Case, seen: &mut Seen) -> String {
    let rows = Rows::at(case, SET);
    let set = rows.lent();
    let number = |i: usize| case.number(i) as usize;
    let (a, b) = (number(MORE), || number(MORE + 1));
    let answer = match case.call {
        "get" => line(set.get_qubit(a, b()), |pauli| format!("ok {pauli:?}")),
        "count" => {
            let each = [Pauli::I, Pauli::X, Pauli::Y, Pauli::Z].map(|pauli| set.count(a, pauli));
            line(each.into_iter().collect::<Result<Vec<_>, _>>(), |v| format!("ok {} {} {} {}", v[0], v[1], v[2], v[3]))
        }
        "phase" => line(set.phase_of_mul(a, b()), |exponent| format!("ok {exponent}")),
        "phaset" => line(set.phase_of_mul_by_table(a, b()), |exponent| format!("ok {exponent}")),
        "comm" => line(set.commutes_with(a, b()), |truth| format!("ok {}", truth as u8)),
        "central" => line(set.belongs_to_centralizer(a), |truth| format!("ok {}", truth as u8)),
        other => unreachable!("{other} is no call"),
    };
    rows.look(seen, false);
    answer
}

/// The calls that change a set in place and have no log.
fn changing(case: &Case, seen: &mut Seen) -> String {
    let mut rows = Rows::at(case, SET);
    let number = |i: usize| case.number(i) as usize;
    let mut set = rows.changed();
    let done = match case.call {
        "set" => set.set_qubit(number(MORE), number(MORE + 1), pauli(case)).map(|_| None),
        "imul" => set.imul(number(MORE), number(MORE + 1)).map(Some),
        "gate" => set.conj_clifford(gate(case)).map(|_| None),
        _ => {
            let text = Lent::of(case.text(MORE + 1).iter().copied());
            let done = set.parse_elem(number(MORE), text.read()).map(|_| None);
            seen.read("text", &text);
            done
        }
    };
    rows.look_but_phases(seen, done.is_ok());
    seen.written("phases", &rows.phases, done.is_ok() && matches!(case.call, "imul" | "gate"));
    line(done, |clashes| match clashes {
        Some(clashes) => format!("ok {} {clashes}", rows.text()),
        None => format!("ok {}", rows.text()),
    })
}

fn pauli(case: &Case) -> Pauli {
    match case.fields[MORE + 2] {
        Field::Letter('X') => Pauli::X,
        Field::Letter('Y') => Pauli::Y,
        Field::Letter('Z') => Pauli::Z,
        _ => Pauli::I,
    }
}

fn gate(case: &Case) -> Gate {
    match case.gate(MORE) {
        LineGate::H(q) => Gate::H(q as usize),
        LineGate::S(q) => Gate::S(q as usize),
        LineGate::CX(control, target) => Gate::CX(control as usize, target as usize),
    }
}

/// The calls that read a set and write elsewhere.
fn writing(case: &Case, seen: &mut Seen) -> String {
    let rows = Rows::at(case, SET);
    let answer = match case.call {
        "act" => act(case, rows.lent(), seen),
        "matrix" => {
            let mut out = Lent::output(case.number(MORE));
            let done = rows.lent().compatibility_matrix(out.write());
            seen.written("the matrix", &out, done.is_ok());
            line(done, |_| format!("ok {}", hexes(out.read())))
        }
        "pair" => pair(case, rows.lent(), seen),
        _ => write(case, rows.lent(), seen),
    };
    rows.look(seen, false);
    answer
}

fn act(case: &Case, set: Set, seen: &mut Seen) -> String {
    let mut state = Lent::of(case.words(MORE + 1).iter().copied());
    let done = set.imul_state(case.number(MORE) as usize, state.write());
    seen.written("the state", &state, done.is_ok());
    line(done, |exponent| format!("ok {exponent} {}", hexes(state.read())))
}

fn pair(case: &Case, left: Set, seen: &mut Seen) -> String {
    let Field::Lengths([x, z, phases, numbers]) = case.fields[MORE + 3] else { unreachable!("four lengths") };
    let right = Rows::at(case, MORE);
    let mut out = Rows { n: left.n, m: left.m, x: Lent::output(x), z: Lent::output(z), phases: Lent::output(phases) };
    let mut clashes = Lent::output(numbers);
    let third = WordsMut { x: out.x.write(), z: out.z.write(), phases: out.phases.write() };
    let done = left.cmpnts_mul_pairwise(right.further(), third, clashes.write());
    right.look(seen, false);
    out.look(seen, done.is_ok());
    seen.written("the numbers", &clashes, done.is_ok());
    line(done, |_| format!("ok {} {}", out.text(), joined(clashes.read())))
}

fn write(case: &Case, set: Set, seen: &mut Seen) -> String {
    let mut out = Lent::output(case.number(MORE + 1));
    let done = set.fmt_elem(case.number(MORE) as usize, out.write()).map(str::to_string);
    seen.past("bytes past the text", &out, done.as_ref().map_or(0, String::len));
    line(done, |text| match &text[..] {
        "" => "ok 0".to_string(),
        _ => format!("ok {} {text}", text.len()),
    })
}

/// `reduce`, `reduceall`, and `pwl`, which writes the file of a finished run.
fn reduction(case: &Case, seen: &mut Seen) -> String {
    let mut rows = Rows::at(case, SET);
    let Some(Field::Number(units)) = case.fields.last() else { unreachable!("the last field is the log's length") };
    let mut log = Lent::output(*units);
    let (done, lists) = match case.call {
        "reduceall" => (rows.changed().canonicalize_all(log.write()), None),
        _ => {
            let lists = OwnLists::at(case, MORE);
            (rows.changed().canonicalize(lists.lent(), log.write()), Some(lists))
        }
    };
    let entries = match done {
        Ok(done) => Some(done.entries),
        Err(Refusal::LogFull(entries)) => Some(entries),
        Err(_) => None,
    };
    rows.look(seen, entries.is_some());
    seen.past("the log past its entries", &log, (2 * entries.unwrap_or(0)).min(log.len()));
    lists.iter().for_each(|lists| lists.look(seen));
    let made = || {
        let pairs = log.read().chunks_exact(2).take(entries.unwrap_or(0));
        joined(&pairs.map(|pair| format!("{}:{}", pair[0], pair[1])).collect::<Vec<_>>())
    };
    match (done, &lists) {
        (Ok(done), Some(lists)) if case.call == "pwl" => {
            file(case, lists, log.read().get(..2 * done.entries), &rows, seen)
        }
        (Err(Refusal::LogFull(entries)), _) => format!("refuse 8 {entries} {} {}", made(), rows.text()),
        (done, _) => line(done, |done| format!("ok {} {} {} {}", done.entries, done.pivots, made(), rows.text())),
    }
}

/// The bytes of a log file that the program `calls` has room for.
const LONGEST: u64 = 16_384;

/// The file of a finished run; what is written is opened and read back as well.
fn file(case: &Case, lists: &OwnLists, log: Option<&[u16]>, claimed: &Rows, seen: &mut Seen) -> String {
    let Some(log) = log else { return "more entries than there is room".to_string() };
    let (start, log, mut out) = (Rows::at(case, SET), Lent::of(log.iter().copied()), Lent::output(LONGEST));
    let done = start.lent().pwl_write(lists.lent(), log.read(), claimed.further(), out.write());
    start.look(seen, false);
    lists.look(seen);
    seen.read("the log", &log);
    seen.past("bytes past the file", &out, done.unwrap_or(0).min(out.len()));
    line(done, |length| {
        format!("ok {}", out.read()[..length].iter().map(|byte| format!("{byte:02x}")).collect::<String>())
    })
}

fn check(case: &Case, seen: &mut Seen) -> String {
    let (mut rows, lists) = (Rows::at(case, SET), OwnLists::at(case, MORE));
    let (log, claimed) = (shorts(case, MORE + 3), Rows::at(case, MORE + 4));
    let said = rows.changed().check(lists.lent(), log.read(), claimed.further());
    rows.look(seen, said.is_ok_and(|said| !matches!(said, Verdict::BadEntry(_))));
    lists.look(seen);
    seen.read("the log", &log);
    claimed.look(seen, false);
    line(said, |said| match said {
        Verdict::Yes => format!("ok yes {}", rows.text()),
        Verdict::BadEntry(place) => format!("ok bad {place} {}", rows.text()),
        Verdict::Differs(place) => format!("ok differs {place} {}", rows.text()),
        Verdict::NotReduced => format!("ok notreduced {}", rows.text()),
    })
}

fn undo(case: &Case, seen: &mut Seen) -> String {
    let mut rows = Rows::at(case, SET);
    let (listed, extra, log) = (shorts(case, MORE), shorts(case, MORE + 1), shorts(case, MORE + 2));
    let said = rows.changed().undo(listed.read(), extra.read(), log.read());
    rows.look(seen, said == Ok(Undone::Done));
    [("listed", &listed), ("extra", &extra), ("the log", &log)].iter().for_each(|(name, lent)| seen.read(name, lent));
    line(said, |said| match said {
        Undone::Done => format!("ok done {}", rows.text()),
        Undone::BadEntry(place) => format!("ok bad {place} {}", rows.text()),
    })
}

/// Terms, from field 1 on.
struct OwnTerms<T> {
    n: usize,
    x: Lent<u64>,
    z: Lent<u64>,
    re: Lent<T>,
    im: Lent<T>,
}

impl<T: Filling> OwnTerms<T> {
    fn of(case: &Case, part: impl Fn(usize) -> Vec<T>) -> Self {
        let words = |i: usize| Lent::of(case.words(i).iter().copied());
        let n = case.number(0) as usize;
        Self { n, x: words(1), z: words(2), re: Lent::of(part(3)), im: Lent::of(part(4)) }
    }

    fn lent(&self) -> Terms<'_, T> {
        Terms { n: self.n, x: self.x.read(), z: self.z.read(), re: self.re.read(), im: self.im.read() }
    }

    fn look(&self, seen: &mut Seen) {
        seen.read("x", &self.x);
        seen.read("z", &self.z);
        seen.read("re", &self.re);
        seen.read("im", &self.im);
    }
}

fn float_element(case: &Case, seen: &mut Seen) -> String {
    let terms = OwnTerms::of(case, |i| case.words(i).iter().map(|bits| f64::from_bits(*bits)).collect());
    let sum = mat_elem_cmpnts_from_presorted(terms.lent(), case.number(5), case.number(6));
    terms.look(seen);
    line(sum, |sum| match sum {
        Some((re, im)) => format!("ok {:016x} {:016x}", re.to_bits(), im.to_bits()),
        None => "none".to_string(),
    })
}

fn whole_element(case: &Case, seen: &mut Seen) -> String {
    let terms = OwnTerms::of(case, |i| case.ints(i).to_vec());
    let sum = mat_elem_cmpnts_from_presorted_whole(terms.lent(), case.number(5), case.number(6));
    terms.look(seen);
    line(sum, |sum| match sum {
        Some((re, im)) => format!("ok {re} {im}"),
        None => "none".to_string(),
    })
}

/// A state, from field i on.
struct OwnState {
    words: Lent<u64>,
    re: Lent<i32>,
    im: Lent<i32>,
}

impl OwnState {
    fn at(case: &Case, i: usize) -> Self {
        let part = |i: usize| Lent::of(case.ints(i).iter().copied());
        Self { words: Lent::of(case.words(i).iter().copied()), re: part(i + 1), im: part(i + 2) }
    }

    fn lent(&self) -> State<'_> {
        State { words: self.words.read(), re: self.re.read(), im: self.im.read() }
    }

    fn look(&self, seen: &mut Seen) {
        seen.read("words", &self.words);
        seen.read("re", &self.re);
        seen.read("im", &self.im);
    }
}

fn element_of_states(case: &Case, seen: &mut Seen) -> String {
    let terms = OwnTerms::of(case, |i| case.ints(i).to_vec());
    let (bra, ket) = (OwnState::at(case, 5), OwnState::at(case, 8));
    let sum = mat_elem_from_presorted(terms.lent(), bra.lent(), ket.lent());
    terms.look(seen);
    bra.look(seen);
    ket.look(seen);
    line(sum, |(re, im)| format!("ok {re} {im}"))
}
