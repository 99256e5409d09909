//! Reductions and checks of their logs; and how the cost of four calls grows with the rows.

use std::hint::black_box;

use bawersun::Lists;
use oracle::qubit::mode::SymplecticPart;
use oracle::qubit::pauli::cmpnt_major::terms::AsViewMut;

use crate::c_limits::{self, Rows};
use crate::ours::{self, Claim};
use crate::random::Random;
use crate::rows::Set;
use crate::table::{self, asked, line, side, time};
use crate::{agree, fields, matrix, pairwise, runs, size, text, QUBITS};

const CHECK: &str = "check; the Rust: a replay";

/// Row counts of the plot.
const GROWTH: [usize; 9] = [16, 32, 64, 128, 256, 512, 1024, 2048, 4096];

pub fn growth() {
    let mut random = Random::of(2, 0);
    table::long_header();
    for m in GROWTH {
        let (left, right) = (Set::random(&mut random, QUBITS, m), Set::random(&mut random, QUBITS, m));
        matrix(&left);
        pairwise(&left, &right);
        reduction(&left);
    }
}

/// The reduction, and the check of its log.
pub fn reduction(set: &Set) {
    let name = "canonicalize_all";
    if !asked(name) && !asked(CHECK) {
        return;
    }
    let m = set.m;
    // room for the most entries that the rule can need, and one more
    let mut log = vec![0; 2 * m * m.min(2 * set.n) + 2];
    let (mut done, mut rust) = (set.clone(), set.terms());
    let (code, entries, _) = ours::canonicalize_all(&mut done, &mut log);
    assert_eq!(code, 0);
    log.truncate(2 * entries + 2);
    let pairs = log[..2 * entries].chunks(2).map(|pair| (pair[0] as usize, pair[1] as usize)).collect::<Vec<_>>();
    let rust_pairs = rust.canonicalize_all();
    let whole = |pairs: &[(usize, usize)], rows: String| format!("{} {rows}", fields::log_text(pairs));
    agree(name, whole(&pairs, text(&done)), whole(&rust_pairs, fields::set_text(&rust)));
    let (start, rows) = (set.terms(), Rows::of(set));
    let limit = |(name, work): (&'static str, c_limits::Reduction)| {
        let (mut other, mut out) = (rows.clone(), vec![0; log.len()]);
        let count = work(&mut other, &mut out);
        let same = count == entries && out[..2 * entries] == log[..2 * entries] && other.are(&done);
        agree(name, same.to_string(), true.to_string());
        let from = &rows;
        let run = move || {
            let mut rows = from.clone();
            time(|| _ = black_box(work(black_box(&mut rows), &mut out)))
        };
        (name, side(1, run))
    };
    let ways = c_limits::REDUCTION.into_iter().map(limit).collect();
    let mut out = vec![0; log.len()];
    line(
        name,
        &size(set),
        runs(m),
        side(1, || {
            let mut rows = set.clone();
            time(|| assert_eq!(ours::canonicalize_all(black_box(&mut rows), &mut out).0, 0))
        }),
        side(1, || {
            let mut rows = start.clone();
            time(|| drop(black_box(black_box(&mut rows).canonicalize_all())))
        }),
        ways,
    );
    log.truncate(2 * entries);
    check(set, &done, &log);
}

/// The reduction by an order with a gap and in another direction, of every second row, with the rest as extra rows.
pub fn with_lists(set: &Set) {
    let name = "canonicalize, half of the rows listed";
    if !asked(name) {
        return;
    }
    let (n, m) = (set.n, set.m);
    let order = (0..2 * n).rev().filter(|c| c % 8 != 0).collect::<Vec<_>>();
    let (listed, extra): (Vec<usize>, Vec<usize>) = (0..m).partition(|r| r % 2 == 0);
    let columns = order.iter().map(|c| fields::column(n, *c)).collect::<Vec<(usize, SymplecticPart)>>();
    let units = |list: &[usize]| list.iter().map(|k| *k as u16).collect::<Vec<_>>();
    let (units_of_order, units_of_listed, units_of_extra) = (units(&order), units(&listed), units(&extra));
    let lists = Lists { order: &units_of_order, listed: &units_of_listed, extra: &units_of_extra };
    let mut log = vec![0; 2 * m * m.min(2 * n) + 2];
    let (mut done, mut rust) = (set.clone(), set.terms());
    let entries = ours::changed(&mut done).canonicalize(lists, &mut log).expect("room enough").entries;
    let pairs = log[..2 * entries].chunks(2).map(|pair| (pair[0] as usize, pair[1] as usize)).collect::<Vec<_>>();
    let rust_pairs = rust.canonicalize(&columns, &listed, &extra).expect("rows and columns that are there");
    let whole = |pairs: &[(usize, usize)], rows: String| format!("{} {rows}", fields::log_text(pairs));
    agree(name, whole(&pairs, text(&done)), whole(&rust_pairs, fields::set_text(&rust)));
    let start = set.terms();
    line(
        name,
        &size(set),
        runs(m),
        side(1, || {
            let mut rows = set.clone();
            time(|| _ = black_box(ours::changed(black_box(&mut rows)).canonicalize(lists, &mut log)))
        }),
        side(1, || {
            let mut rows = start.clone();
            time(|| drop(black_box(black_box(&mut rows).canonicalize(&columns, &listed, &extra))))
        }),
        vec![],
    );
}

/// The Rust has no checker: beside ours stands its replay of the log, a product for each entry.
fn check(set: &Set, done: &Set, log: &[u16]) {
    let m = set.m;
    let order = (0..2 * set.n as u16).collect::<Vec<_>>();
    let listed = (0..m as u16).collect::<Vec<_>>();
    let claim = Claim { order: &order, listed: &listed, extra: &[], log, rows: done };
    assert_eq!(ours::check(&mut set.clone(), &claim), (0, 0));
    let (start, rows) = (set.terms(), Rows::of(set));
    let limit = |(name, work): (&'static str, c_limits::Replay)| {
        let mut other = rows.clone();
        work(&mut other, log);
        agree(name, other.are(done).to_string(), true.to_string());
        let from = &rows;
        let run = move || {
            let mut rows = from.clone();
            time(|| work(black_box(&mut rows), log))
        };
        (name, side(1, run))
    };
    let ways = c_limits::REPLAY.into_iter().map(limit).collect();
    line(
        CHECK,
        &size(set),
        runs(m),
        side(1, || {
            let mut rows = set.clone();
            time(|| assert_eq!(ours::check(black_box(&mut rows), &claim), (0, 0)))
        }),
        side(1, || {
            let mut rows = start.clone();
            time(|| log.chunks(2).for_each(|pair| black_box(&mut rows).imul(pair[0] as usize, pair[1] as usize)))
        }),
        ways,
    );
}
