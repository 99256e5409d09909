//! Random calls that document 01 does not refuse, or refuses only because a set has no row or no qubit to name.

use crate::gates;
use crate::limits::{QUBITS, ROWS, UNITS_IN_REACH, WORDS_IN_REACH};
use crate::line::{Case, Field, CALLS};
use crate::random::Random;
use crate::reduction::{reduce, replay, Lists};
use crate::rows::{multiply, packed, unpacked, words_for, Pauli, Row, Set, LETTERS};
use crate::{states, texts};

/// Qubits and rows: mostly few, some at the edges of words, few at the limits.
pub fn sizes(random: &mut Random) -> (usize, usize) {
    match random.below(1000) {
        0..=829 => (random.within(0, 8), random.within(0, 6)),
        // rows around the end of a phase word
        830..=849 => (random.within(0, 5), random.within(30, 34)),
        850..=949 => (random.pick(&[62, 63, 64, 65, 66, 127, 128, 129, 191, 192]), random.within(0, 8)),
        950..=969 => (random.within(9, 200), random.within(0, 12)),
        970..=984 => (random.within(0, 5), random.pick(&[31, 32, 33, 63, 64, 65, 127, 128, 129, 255, 256])),
        985..=992 => (random.pick(&[QUBITS - 2, QUBITS - 1, QUBITS]), random.within(0, 3)),
        993..=996 => (random.within(0, 4), random.pick(&[ROWS - 1, ROWS])),
        997 => (random.pick(&[63, 64]), random.pick(&[ROWS - 1, ROWS])),
        998 => (random.pick(&[64, 65, 129]), random.pick(&[64, 65, 255, 256])),
        _ => (random.pick(&[1023, 1024, QUBITS - 1, QUBITS]), random.pick(&[64, 65])),
    }
}

pub fn dense(random: &mut Random, n: usize) -> Vec<Pauli> {
    (0..n).map(|_| random.pick(&LETTERS)).collect()
}

pub fn sparse(random: &mut Random, n: usize) -> Vec<Pauli> {
    let mut out = vec![Pauli::I; n];
    for _ in 0..random.below(4).min(n) {
        out[random.below(n)] = random.pick(&LETTERS);
    }
    out
}

fn one_letter(random: &mut Random, n: usize) -> Vec<Pauli> {
    let letter = random.pick(&LETTERS);
    (0..n).map(|_| if random.chance(700) { letter } else { Pauli::I }).collect()
}

pub fn rows(random: &mut Random, n: usize, m: usize) -> Vec<Row> {
    let style = random.below(4);
    let mut out: Vec<Row> = vec![];
    for r in 0..m {
        let paulis = match style {
            0 => dense(random, n),
            1 => sparse(random, n),
            2 => one_letter(random, n),
            _ => dense(random, n),
        };
        out.push(Row { paulis, phase: random.below(4) as u8 });
        // Dependent rows: a product of two earlier ones, or a copy.
        if style == 3 && r > 0 && random.chance(600) {
            let (a, b) = (random.below(r), random.below(r));
            out[r].paulis = out[a].paulis.clone();
            if random.chance(700) {
                multiply(&mut out, r, b);
            }
        }
    }
    out
}

fn fields_of(n: usize, set: &Set) -> Vec<Field> {
    [vec![Field::Number(n as u64), Field::Number(set.m as u64)], further(set)].concat()
}

/// The fields of a further set: n and m stand once in a line.
pub fn further(set: &Set) -> Vec<Field> {
    [&set.x, &set.z, &set.p].map(|words| Field::Words(words.clone())).to_vec()
}

/// The lengths of a third set, and of its numbers.
pub fn lengths_of(set: &Set) -> Field {
    Field::Lengths([set.x.len(), set.z.len(), set.p.len(), set.m].map(|v| v as u64))
}

/// A call over this set with these further fields.
pub fn call_on(call: &str, n: usize, set: &Set, more: Vec<Field>) -> Case {
    Case::new(call, [fields_of(n, set), more].concat())
}

/// A number below n, or 0.
pub fn some(random: &mut Random, n: usize) -> Field {
    Field::Number(random.below(n.max(1)) as u64)
}

pub fn case(random: &mut Random) -> Case {
    let at = match random.below(CALLS.len() + 6) {
        i if i < CALLS.len() => i,
        // Reductions, checks and elements have the most to go wrong.
        i => i - 6,
    };
    of_call(random, CALLS[at].0)
}

pub fn of_call(random: &mut Random, call: &str) -> Case {
    match call {
        "phase1" => Case::new(call, (0..4).map(|_| Field::Word(any_word(random))).collect()),
        "act1" => Case::new(call, (0..3).map(|_| Field::Word(any_word(random))).collect()),
        "elemf" | "elemi" => element(random, call),
        "elems" => states::case(random),
        _ => {
            let (n, m) = sizes(random);
            let rows = rows(random, n, m);
            over_rows(random, call, n, rows)
        }
    }
}

pub fn any_word(random: &mut Random) -> u64 {
    let word = random.word();
    match random.below(6) {
        0 => word & random.word() & random.word(),
        1 => word & 7,
        2 => word << 60,
        3 => 0,
        4 => u64::MAX,
        _ => word,
    }
}

pub fn over_rows(random: &mut Random, call: &str, n: usize, rows: Vec<Row>) -> Case {
    let m = rows.len();
    let set = packed(n, &rows);
    let more = match call {
        "get" => vec![some(random, m), some(random, n)],
        "set" => vec![some(random, m), some(random, n), Field::Letter(random.pick(&['I', 'X', 'Y', 'Z']))],
        "count" | "central" => vec![some(random, m)],
        "phase" | "phaset" | "comm" | "imul" => vec![some(random, m), some(random, m)],
        "act" => vec![some(random, m), Field::Words(state(random, n))],
        // a matrix of many rows has more words than a line may ask for: refused as too short
        "matrix" => vec![Field::Number((m * words_for(m)).min(WORDS_IN_REACH) as u64)],
        "pair" => second_set(random, n, &rows),
        "reduceall" => {
            let (order, listed): (Vec<u16>, Vec<u16>) = ((0..2 * n as u16).collect(), (0..m as u16).collect());
            let lists = Lists { order: &order, listed: &listed, extra: &[] };
            vec![Field::Number(units(random, &rows, lists))]
        }
        "gate" => vec![Field::Gate(gates::random(random, n))],
        "write" => texts::to_be_written(random, &rows),
        "read" => vec![some(random, m), Field::Text(texts::random(random, n, true))],
        "readx" => vec![some(random, m), Field::TextBytes(texts::random(random, n, false))],
        "reduce" | "pwl" => reduction(random, n, &rows),
        "undo" => walked(random, n, &rows),
        _ => check(random, n, &rows),
    };
    call_on(call, n, &set, more)
}

fn state(random: &mut Random, n: usize) -> Vec<u64> {
    let row = Row { paulis: dense(random, n), phase: 0 };
    packed(n, &[row]).x
}

/// The right set of a pairwise product. In one of four its phases undo the left ones, so that the bare rule of the Rust
/// is met in every row.
fn second_set(random: &mut Random, n: usize, left: &[Row]) -> Vec<Field> {
    let m = left.len();
    let mut right = rows(random, n, m);
    if random.chance(250) {
        right.iter_mut().zip(left).for_each(|(r, l)| r.phase = (4 - l.phase) % 4);
    }
    let right = packed(n, &right);
    [further(&right), vec![lengths_of(&right)]].concat()
}

pub struct OwnLists {
    pub order: Vec<u16>,
    pub listed: Vec<u16>,
    pub extra: Vec<u16>,
}

impl OwnLists {
    pub fn lent(&self) -> Lists<'_> {
        Lists { order: &self.order, listed: &self.listed, extra: &self.extra }
    }

    pub fn fields(&self) -> Vec<Field> {
        vec![Field::Shorts(self.order.clone()), Field::Shorts(self.listed.clone()), Field::Shorts(self.extra.clone())]
    }
}

pub fn lists(random: &mut Random, n: usize, m: usize) -> OwnLists {
    let order = match random.below(5) {
        0 | 1 => random.permutation(2 * n),
        2 => random.subset(2 * n),
        // X and Z of each qubit side by side
        3 => random.permutation(n).into_iter().flat_map(|q| [q, q + n as u16]).collect(),
        _ => (0..2 * n as u16).collect(),
    };
    let listed = match random.below(4) {
        0 => (0..m as u16).collect(),
        1 => random.permutation(m),
        _ => random.subset(m),
    };
    let extra = match random.below(4) {
        0 => vec![],
        1 => (0..m as u16).filter(|row| !listed.contains(row)).collect(),
        2 => random.subset(m),
        _ => random.repeats(m, m + 3),
    };
    OwnLists { order, listed, extra }
}

/// A length of the log around what the rule needs.
fn units(random: &mut Random, rows: &[Row], lists: Lists) -> u64 {
    let needed = reduce(&mut rows.to_vec(), lists, usize::MAX).log.len();
    let around = match random.below(10) {
        0 => 2 * needed + 1,
        1 => (2 * needed).saturating_sub(1),
        2 => (2 * needed).saturating_sub(2),
        3 => random.below(2 * needed + 1),
        4 => random.below(2),
        5 => 2 * needed + random.below(40),
        _ => 2 * needed,
    };
    around.min(UNITS_IN_REACH) as u64
}

fn reduction(random: &mut Random, n: usize, rows: &[Row]) -> Vec<Field> {
    let lists = lists(random, n, rows.len());
    let units = units(random, rows, lists.lent());
    [lists.fields(), vec![Field::Number(units)]].concat()
}

/// A log in either form and a claim, whole or damaged in one place.
fn check(random: &mut Random, n: usize, start: &[Row]) -> Vec<Field> {
    let mut lists = lists(random, n, start.len());
    let mut claim = start.to_vec();
    let mut log = own_log(&mut claim, lists.lent());
    damage(random, n, start, &mut lists, &mut log, &mut claim);
    [lists.fields(), vec![either_form(random, log)], further(&packed(n, &claim))].concat()
}

/// The units of a reduction's log, as many as a line has.
fn own_log(rows: &mut [Row], lists: Lists) -> Vec<u16> {
    let mut log = reduce(rows, lists, usize::MAX).units();
    log.truncate(UNITS_IN_REACH - 2);
    log
}

pub fn either_form(random: &mut Random, log: Vec<u16>) -> Field {
    if random.chance(500) {
        Field::Pairs(log)
    } else {
        Field::Shorts(log)
    }
}

/// A log to be walked back: one of our own for these rows or for others, whole, cut or damaged in one place; or one that is
/// made up of sound entries.
fn walked(random: &mut Random, n: usize, rows: &[Row]) -> Vec<Field> {
    let m = rows.len();
    let mut lists = lists(random, n, m);
    let mut log =
        if random.chance(300) { others_log(random, &lists) } else { own_log(&mut rows.to_vec(), lists.lent()) };
    if random.chance(200) {
        log.truncate(2 * random.below(log.len() / 2 + 1));
    }
    damage(random, n, rows, &mut lists, &mut log, &mut rows.to_vec());
    vec![Field::Shorts(lists.listed), Field::Shorts(lists.extra), either_form(random, log)]
}

/// Up to twenty entries, each of a listed or extra row by another, listed one.
fn others_log(random: &mut Random, lists: &OwnLists) -> Vec<u16> {
    let targets = [lists.listed.clone(), lists.extra.clone()].concat();
    let mut log = vec![];
    if !lists.listed.is_empty() {
        for _ in 0..random.below(21) {
            let (target, source) = (random.pick(&targets), random.pick(&lists.listed));
            if target != source {
                log.extend([target, source]);
            }
        }
    }
    log
}

fn damage(
    random: &mut Random,
    n: usize,
    start: &[Row],
    lists: &mut OwnLists,
    log: &mut Vec<u16>,
    claim: &mut Vec<Row>,
) {
    let m = start.len();
    match random.below(16) {
        0 => damage_entry(random, m, log),
        1 if log.len() >= 4 => swap_entries(random, log),
        2 if log.len() >= 2 => drop_entry(random, log),
        3 if m > 0 => {
            // One more entry, and the claim that goes with it where the entry is sound.
            log.extend([random.below(m) as u16, random.below(m) as u16]);
            *claim = replayed(start, log);
        }
        4 if m > 0 => claim[random.below(m)].phase ^= random.within(1, 3) as u8,
        5 if m > 0 && n > 0 => damage_bit(random, n, m, claim),
        6 => random.shuffle(&mut lists.order),
        7 => {
            lists.listed.pop();
        }
        8 => lists.extra.extend(random.repeats(m, 3)),
        9 => {
            log.clear();
            *claim = start.to_vec();
        }
        10 if log.len() >= 2 => {
            log.truncate(log.len() - 2);
            *claim = replayed(start, log);
        }
        11 if m > 1 => claim.swap(0, m - 1),
        _ => {}
    }
}

fn damage_entry(random: &mut Random, m: usize, log: &mut [u16]) {
    if log.is_empty() {
        return;
    }
    let at = random.below(log.len());
    log[at] = match random.below(4) {
        0 => log[at ^ 1],
        1 => m as u16,
        2 => 65535,
        _ => random.below(m) as u16,
    };
}

fn swap_entries(random: &mut Random, log: &mut [u16]) {
    let at = 2 * random.below(log.len() / 2 - 1);
    log.swap(at, at + 2);
    log.swap(at + 1, at + 3);
}

fn drop_entry(random: &mut Random, log: &mut Vec<u16>) {
    let at = 2 * random.below(log.len() / 2);
    log.drain(at..at + 2);
}

fn damage_bit(random: &mut Random, n: usize, m: usize, claim: &mut Vec<Row>) {
    let mut set = packed(n, claim);
    let (q, w) = (random.below(n), words_for(n));
    let at = random.below(m) * w + q / 64;
    let part = if random.chance(500) { &mut set.x } else { &mut set.z };
    part[at] ^= 1 << (q % 64);
    *claim = unpacked(n, &set);
}

fn replayed(start: &[Row], log: &[u16]) -> Vec<Row> {
    let mut rows = start.to_vec();
    replay(&mut rows, log);
    rows
}

// ---- matrix elements

fn element(random: &mut Random, call: &str) -> Case {
    let n = random.pick(&[1, 1, 2, 2, 3, 4, 7, 31, 32, 63, 64]);
    let count = if random.chance(20) { random.within(50, 400) } else { random.below(13) };
    of_terms(random, call, n, count)
}

pub fn masked(n: usize, word: u64) -> u64 {
    if n < 64 {
        word & ((1 << n) - 1)
    } else {
        word
    }
}

/// Terms with few different X words, so that blocks have several terms, and a bra and ket that mostly meet one.
pub fn of_terms(random: &mut Random, call: &str, n: usize, count: usize) -> Case {
    let kinds: Vec<u64> = (0..random.within(1, 5)).map(|_| masked(n, any_word(random))).collect();
    let mut x: Vec<u64> = (0..count).map(|_| random.pick(&kinds)).collect();
    x.sort();
    let z = (0..count).map(|_| masked(n, any_word(random))).collect();
    let ket = masked(n, any_word(random));
    let bra = if random.chance(850) { ket ^ random.pick(&kinds) } else { masked(n, any_word(random)) };
    let (re, im) = match call {
        "elemf" => (Field::Words(floats(random, count)), Field::Words(floats(random, count))),
        _ => (Field::Ints(ints(random, count)), Field::Ints(ints(random, count))),
    };
    let fields = vec![Field::Number(n as u64), Field::Words(x), Field::Words(z), re, im];
    Case::new(call, [fields, vec![Field::Word(bra), Field::Word(ket)]].concat())
}

pub fn ints(random: &mut Random, count: usize) -> Vec<i32> {
    let one = |random: &mut Random| match random.below(6) {
        0 => random.pick(&[i32::MIN, i32::MAX, i32::MIN + 1, -1, 0, 1]),
        1 => random.word() as i32,
        _ => random.below(19) as i32 - 9,
    };
    (0..count).map(|_| one(random)).collect()
}

/// Floats of one class or of all: small, of any size, cancelling, subnormal, zeros of both signs, near the largest.
fn floats(random: &mut Random, count: usize) -> Vec<u64> {
    let class = random.below(8);
    let mut out: Vec<u64> = vec![];
    for _ in 0..count {
        let class = if class == 7 { random.below(7) } else { class };
        let last = out.last().copied().unwrap_or(0);
        out.push(float(random, class, last));
    }
    out
}

const SIGN: u64 = 1 << 63;

fn float(random: &mut Random, class: usize, last: u64) -> u64 {
    match class {
        0 => (random.below(41) as f64 - 20.0).to_bits(),
        1 => finite(random),
        2 => {
            // Cancels its neighbour, or nearly.
            let off = random.pick(&[0, 0, 0, 1, 2]);
            let near = (last ^ SIGN).wrapping_add(off);
            if last != 0 && f64::from_bits(near).is_finite() {
                near
            } else {
                finite(random)
            }
        }
        3 => random.word() & (SIGN | 0x000f_ffff_ffff_ffff),
        4 => random.pick(&[0, SIGN]),
        5 => near_largest(random),
        _ => (random.below(2001) as f64 / 1000.0 - 1.0).to_bits(),
    }
}

fn finite(random: &mut Random) -> u64 {
    loop {
        let bits = random.word();
        if f64::from_bits(bits).is_finite() {
            return bits;
        }
    }
}

fn near_largest(random: &mut Random) -> u64 {
    let size = random.pick(&[f64::MAX, f64::MAX / 2.0, f64::MAX / 4.0, 1.0, f64::MAX / 65536.0]);
    size.to_bits() | (random.word() & SIGN)
}
