//! Reductions around the edges of the table (crates/late): rows and columns from which on products are put off, pivots at
//! the ends of blocks, and a log that is full there.

use std::collections::BTreeMap;

use crate::line::{Case, Field};
use crate::random::Random;
use crate::reduction::{reduce, Reduction};
use crate::rows::{multiply, packed, Pauli, Row};
use crate::small::Sink;
use crate::valid::{call_on, dense, sparse, OwnLists};

/// Rows and columns from which on the table is taken, and the pivots of a block.
const ROWS: usize = 64;
const COLUMNS: usize = 64;
const BLOCK: usize = 6;

/// Numbers of pivots that are counted: around one block's end and the next.
const PIVOTS: [usize; 6] = [BLOCK - 1, BLOCK, BLOCK + 1, 2 * BLOCK - 1, 2 * BLOCK, 2 * BLOCK + 1];

/// A log of at most so many entries is cut at every one of them.
const SHORT: usize = 50;

/// At most so many capacities of a longer log.
const CAPACITIES: usize = 12;

/// A run of so many sets meets every number of pivots that is counted.
const MANY: u64 = 1000;

/// The sets of a run, those of them that the table is for, and these by the numbers of pivots that are counted.
#[derive(Default)]
pub struct Reached {
    sets: u64,
    tabled: u64,
    pivots: BTreeMap<usize, u64>,
}

struct Start {
    n: usize,
    rows: Vec<Row>,
    lists: OwnLists,
    whole: bool,
}

/// So many cases: set after set, each with its capacities.
pub fn all(seed: u64, count: u64, sink: Sink) -> Reached {
    let mut reached = Reached::default();
    let (mut put, mut i) = (0, 0);
    while put < count {
        let mut random = Random::of(seed ^ 0x1a7e, i);
        let start = start(&mut random, i as usize);
        let done = reduce(&mut start.rows.to_vec(), start.lists.lent(), usize::MAX);
        reached.add(&start, &done);
        for units in lengths(&mut random, &done).into_iter().take((count - put) as usize) {
            sink(start.case(units).line());
            put += 1;
        }
        i += 1;
    }
    reached
}

/// Some for the fixed list: sets that the table is for, with logs that hold half of the entries, all but one, and all.
pub fn few(sink: Sink) {
    for i in 25..32 {
        let start = start(&mut Random::of(0x1a7e, i), i as usize);
        let needed = reduce(&mut start.rows.to_vec(), start.lists.lent(), usize::MAX).log.len();
        [needed / 2, needed.saturating_sub(1), needed].map(|entries| sink(start.case(2 * entries).line()));
    }
}

/// Set i: the 25 pairs of rows and columns next to the edges go round, and between them others.
fn start(random: &mut Random, i: usize) -> Start {
    let (at, near) = (i % 32, |edge: usize, step: usize| edge - 2 + step);
    let m = if at < 25 { near(ROWS, at / 5) } else { random.pick(&[64, 65, 70, 70, 96, 130]) };
    let columns = if at < 25 { near(COLUMNS, at % 5) } else { random.pick(&[64, 67, 70, 96, 128, 130]) };
    let whole = columns % 2 == 0 && random.chance(400);
    let n = if whole || random.chance(500) {
        columns.div_ceil(2)
    } else {
        random.pick(&[33, 34, 40, 63, 64, 65, 66, 96, 129]).max(columns.div_ceil(2))
    };
    let rows = rows(random, n, m);
    let lists = if whole { all_of(n, m) } else { lists(random, n, columns, m) };
    Start { n, rows, lists, whole }
}

impl Start {
    /// The call that lends a log of so many units.
    fn case(&self, units: usize) -> Case {
        let set = packed(self.n, &self.rows);
        let log = Field::Number(units as u64);
        if self.whole {
            return call_on("reduceall", self.n, &set, vec![log]);
        }
        call_on("reduce", self.n, &set, [self.lists.fields(), vec![log]].concat())
    }
}

fn all_of(n: usize, m: usize) -> OwnLists {
    OwnLists { order: (0..2 * n as u16).collect(), listed: (0..m as u16).collect(), extra: vec![] }
}

/// Rows of any phases that so many rows span, or that are any.
fn rows(random: &mut Random, n: usize, m: usize) -> Vec<Row> {
    let rank = match random.below(10) {
        0..=5 => random.pick(&PIVOTS),
        6 => random.pick(&[0, 1, 2, 3 * BLOCK - 1, 3 * BLOCK, 3 * BLOCK + 1]),
        7 => random.within(20, 60),
        _ => m,
    };
    let style = random.below(4);
    let mut out: Vec<Row> = vec![];
    for r in 0..m {
        let paulis = match style {
            0 if r >= rank => vec![Pauli::I; n],
            1 => sparse(random, n),
            _ => dense(random, n),
        };
        out.push(Row { paulis, phase: random.below(4) as u8 });
        if r >= rank && rank > 0 {
            depend(random, &mut out, rank, style);
        }
        if r >= rank && rank == 0 {
            out[r].paulis = vec![Pauli::I; n];
        }
    }
    random.shuffle(&mut out);
    out
}

/// The last row becomes one of the span of the first: few of them other than the identity, or copies and identities, or
/// products of some.
fn depend(random: &mut Random, rows: &mut [Row], rank: usize, style: usize) {
    let last = rows.len() - 1;
    let n = rows[last].paulis.len();
    rows[last].paulis = vec![Pauli::I; n];
    match style {
        0 if random.chance(950) => {}
        1 | 2 if random.chance(300) => {}
        0..=2 => multiply(rows, last, random.below(rank)),
        _ => (0..rank).filter(|_| random.chance(500)).for_each(|r| multiply(rows, last, r)),
    }
}

/// An order of so many columns, and lists of rows: all, permuted, cut, or as many as end a block.
fn lists(random: &mut Random, n: usize, columns: usize, m: usize) -> OwnLists {
    let mut order: Vec<u16> = match random.below(4) {
        0 => (0..2 * n as u16).collect(),
        1 => (0..2 * n as u16).rev().collect(),
        2 => (0..n as u16).flat_map(|q| [q + n as u16, q]).collect(),
        _ => random.permutation(2 * n),
    };
    order.truncate(columns);
    let mut listed = if random.chance(250) { (0..m as u16).collect() } else { random.permutation(m) };
    match random.below(6) {
        0 => listed.truncate(random.pick(&PIVOTS)),
        1 => listed.truncate(random.within(m / 2, m)),
        2 => listed.truncate(m - 1),
        _ => {}
    }
    let extra = match random.below(5) {
        0 | 1 => (0..m as u16).filter(|row| !listed.contains(row)).collect(),
        2 => random.subset(m),
        3 => random.repeats(m, m + 3),
        _ => vec![],
    };
    OwnLists { order, listed, extra }
}

/// Lengths of the log, an odd one for some: every one of a short log; of another none, one, at each block's end and beside
/// it, all and around it, or some of these, all and one more always among them.
fn lengths(random: &mut Random, done: &Reduction) -> Vec<usize> {
    let needed = done.log.len();
    let mut entries: Vec<usize> = if needed <= SHORT {
        (0..needed).collect()
    } else {
        let ends = done.ends.iter().skip(BLOCK - 1).step_by(BLOCK);
        let beside = ends.flat_map(|end| [end.saturating_sub(1), *end, end + 1]);
        let any = [0, 1, random.below(needed), random.pick(&done.ends), needed - 1];
        any.into_iter().chain(beside).filter(|entries| *entries < needed).collect()
    };
    entries.sort();
    entries.dedup();
    if needed > SHORT {
        random.shuffle(&mut entries);
        entries.truncate(CAPACITIES - 2);
    }
    entries.extend([needed, needed + 1]);
    entries.into_iter().map(|entries| 2 * entries + random.chance(200) as usize).collect()
}

impl Reached {
    fn add(&mut self, start: &Start, done: &Reduction) {
        self.sets += 1;
        if start.rows.len() >= ROWS && start.lists.order.len() >= COLUMNS {
            self.tabled += 1;
            *self.pivots.entry(done.t).or_default() += 1;
        }
    }

    pub fn report(&self) -> String {
        let of = |t: &usize| self.pivots.get(t).copied().unwrap_or(0);
        let counted: Vec<String> = PIVOTS.iter().map(|t| format!("{t} pivots: {}", of(t))).collect();
        let more: u64 = self.pivots.range(2 * BLOCK + 2..).map(|(_, sets)| sets).sum();
        let counted = counted.join(", ");
        format!(
            "sets: {}; of {ROWS} rows and {COLUMNS} columns on: {}; of these {counted}, more: {more}",
            self.sets, self.tabled
        )
    }

    /// Whether a number of pivots that is counted was never met, in a run that is long enough to meet each.
    pub fn blind(&self) -> bool {
        self.sets >= MANY && PIVOTS.iter().any(|t| !self.pivots.contains_key(t))
    }
}
