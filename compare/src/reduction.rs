//! The reduction rule, the replay and the reduced form, word for word from document 01.

use crate::rows::{at_column, inverse, multiply, row_product, Row};

pub struct Reduction {
    pub log: Vec<(u16, u16)>,
    pub t: usize,
    /// The entries behind each pivot.
    pub ends: Vec<usize>,
    /// The rule needed more entries than fit.
    pub full: bool,
}

impl Reduction {
    /// The log as units: target, source, target, source.
    pub fn units(&self) -> Vec<u16> {
        self.log.iter().flat_map(|(a, b)| [*a, *b]).collect()
    }
}

/// The places a reduction goes by.
#[derive(Clone, Copy)]
pub struct Lists<'a> {
    pub order: &'a [u16],
    pub listed: &'a [u16],
    pub extra: &'a [u16],
}

pub fn reduce(rows: &mut [Row], lists: Lists, capacity: usize) -> Reduction {
    let mut out = Reduction { log: vec![], t: 0, ends: vec![], full: false };
    for column in lists.order {
        let found = lists.listed.iter().skip(out.t).find(|row| at_column(&rows[**row as usize], *column));
        let Some(found) = found else { continue };
        let pivot = lists.listed[out.t];
        if *found != pivot && !entry(rows, &mut out, pivot, *found, capacity) {
            return out;
        }
        for row in lists.listed.iter().chain(lists.extra) {
            let touched = *row != pivot && at_column(&rows[*row as usize], *column);
            if touched && !entry(rows, &mut out, *row, pivot, capacity) {
                return out;
            }
        }
        out.t += 1;
        out.ends.push(out.log.len());
    }
    out
}

/// One product and its entry, if the entry fits.
fn entry(rows: &mut [Row], out: &mut Reduction, target: u16, source: u16, capacity: usize) -> bool {
    if out.log.len() == capacity {
        out.full = true;
        return false;
    }
    multiply(rows, target as usize, source as usize);
    out.log.push((target, source));
    true
}

/// The number of the first bad entry, counted in pairs.
pub fn first_bad(m: usize, lists: Lists, log: &[u16]) -> Option<usize> {
    let good = |target: u16, source: u16| {
        target != source
            && (target as usize) < m
            && (source as usize) < m
            && (lists.listed.contains(&target) || lists.extra.contains(&target))
            && lists.listed.contains(&source)
    };
    log.chunks(2).position(|pair| !good(pair[0], pair[1]))
}

pub fn replay(rows: &mut [Row], log: &[u16]) {
    for pair in log.chunks(2) {
        multiply(rows, pair[0] as usize, pair[1] as usize);
    }
}

/// The entries of a log taken back, the last one first: the target by the inverse of the source.
pub fn walk_back(rows: &mut [Row], log: &[u16]) {
    for pair in log.chunks(2).rev() {
        let (target, source) = (pair[0] as usize, pair[1] as usize);
        rows[target] = row_product(&rows[target], &inverse(&rows[source]));
    }
}

/// The place in the order of a row's first 1.
fn first_place(row: &Row, order: &[u16]) -> Option<usize> {
    order.iter().position(|column| at_column(row, *column))
}

/// The reduced form. A pivot row has 0 at every column before its pivot, so its pivot's place is that of its first 1;
/// and t is the number of listed rows before the first without any.
pub fn is_reduced(rows: &[Row], lists: Lists) -> bool {
    let places: Vec<Option<usize>> =
        lists.listed.iter().map(|row| first_place(&rows[*row as usize], lists.order)).collect();
    let t = places.iter().position(|place| place.is_none()).unwrap_or(places.len());
    let pivots: Vec<usize> = places[..t].iter().map(|place| place.unwrap()).collect();
    let rest_is_clear = places[t..].iter().all(|place| place.is_none());
    let rising = pivots.windows(2).all(|pair| pair[0] < pair[1]);
    let alone = |(j, place): (usize, &usize)| {
        let others = lists.listed.iter().chain(lists.extra).filter(|row| **row != lists.listed[j]);
        others.into_iter().all(|row| !at_column(&rows[*row as usize], lists.order[*place]))
    };
    rest_is_clear && rising && pivots.iter().enumerate().all(alone)
}
