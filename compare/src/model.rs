//! Document 01 in plain words: every line gets its answer, refusals included. Written from the document and its
//! readings alone.

use crate::gates::conjugate;
use crate::limits::{QUBITS, ROWS, TERMS, VECTORS};
use crate::line::{hexes, joined, parsed, Case, Field, M, MORE, SET};
use crate::pwl;
use crate::reduction::{first_bad, is_reduced, reduce, replay, walk_back, Lists};
use crate::rows::*;
use crate::texts;

pub fn answer(line: &str) -> String {
    match parsed(line) {
        None => "bad line".to_string(),
        Some(case) => answer_to(&case),
    }
}

pub fn answer_to(case: &Case) -> String {
    match refusal(case) {
        Some(number) => format!("refuse {number}"),
        None => worked(case),
    }
}

// ---- refusals

type Test<'a> = (u8, Box<dyn Fn() -> bool + 'a>);

/// The tests stand by rank, the table from the top down, so a later one may count on what the earlier ones found. Numbers
/// need not rise.
fn first_fitting(tests: Vec<Test>) -> Option<u8> {
    tests.iter().find(|test| (test.1)()).map(|test| test.0)
}

/// The set in the fields from i on. All sets of a call have the one m.
pub fn set_at(case: &Case, i: usize) -> Set {
    let part = |i: usize| case.words(i).to_vec();
    Set { m: case.number(M) as usize, x: part(i), z: part(i + 1), p: part(i + 2) }
}

pub fn sets_of(case: &Case) -> Vec<Set> {
    match case.call {
        "pair" => vec![set_at(case, SET), set_at(case, MORE)],
        "check" => vec![set_at(case, SET), set_at(case, MORE + 4)],
        _ => vec![set_at(case, SET)],
    }
}

fn refusal(case: &Case) -> Option<u8> {
    match case.call {
        "phase1" | "act1" => None,
        "elemf" | "elemi" => refusal_of_terms(case),
        "elems" => refusal_of_states(case),
        _ => refusal_of_sets(case),
    }
}

fn refusal_of_sets(case: &Case) -> Option<u8> {
    let n = case.number(0);
    let sets = sets_of(case);
    let size = n as usize;
    first_fitting(vec![
        (1, Box::new(move || n > QUBITS as u64)),
        (2, Box::new(|| case.number(M) > ROWS as u64)),
        (3, Box::new(|| !lengths_fit(case, size, &sets))),
        (4, Box::new(|| sets.iter().any(|set| spare_bit(size, set)) || spare_bit_in_state(case))),
        (5, Box::new(|| sets.iter().any(|set| spare(2 * set.m, &set.p)))),
        (6, Box::new(|| number_too_large(case, size, sets[0].m))),
        (21, Box::new(|| case.call == "gate" && case.gate(MORE).one_qubit_twice())),
        (7, Box::new(|| repeated_in(case, places_of(case).map(|places| places.1)))),
        (15, Box::new(|| repeated_in(case, places_of(case).and_then(|places| places.0)))),
        (9, Box::new(|| log_of(case).is_some_and(|log| log.len() % 2 == 1))),
        (13, Box::new(|| matches!(case.call, "read" | "readx") && texts::read(size, case.text(MORE + 1)).is_none())),
        (14, Box::new(|| case.call == "write" && text_of_row(case).len() as u64 > case.number(MORE + 1))),
    ])
}

fn lengths_fit(case: &Case, n: usize, sets: &[Set]) -> bool {
    let w = words_for(n);
    let m = sets[0].m;
    let fits = |set: &Set| set.x.len() == m * w && set.z.len() == m * w && set.p.len() == phase_words_for(m);
    sets.iter().all(fits) && output_fits(case, m, w)
}

fn output_fits(case: &Case, m: usize, w: usize) -> bool {
    match case.call {
        "act" => case.words(MORE + 1).len() == w,
        "matrix" => case.number(MORE) == (m * words_for(m)) as u64,
        "pair" => case.fields[MORE + 3] == Field::Lengths([m * w, m * w, phase_words_for(m), m].map(|v| v as u64)),
        _ => true,
    }
}

/// A bit set at n or above in the last word of a row.
fn spare_bit(n: usize, set: &Set) -> bool {
    let w = words_for(n);
    w > 0 && set.x.chunks(w).chain(set.z.chunks(w)).any(|row| spare(n, row))
}

/// A bit set at n or above; the phases of m rows are 2m bits.
fn spare(n: usize, row: &[u64]) -> bool {
    (n..64 * row.len()).any(|q| bit(row, q))
}

fn spare_bit_in_state(case: &Case) -> bool {
    case.call == "act" && spare(case.number(0) as usize, case.words(MORE + 1))
}

fn number_too_large(case: &Case, n: usize, m: usize) -> bool {
    let row = |i: usize| case.number(i) >= m as u64;
    let rows = |i: usize| case.shorts(i).iter().any(|row| *row as usize >= m);
    let columns = |i: usize| case.shorts(i).iter().any(|column| *column as usize >= 2 * n);
    match case.call {
        "get" | "set" => row(MORE) || case.number(MORE + 1) >= n as u64,
        "count" | "central" | "act" | "write" | "read" | "readx" => row(MORE),
        "phase" | "phaset" | "comm" | "imul" => row(MORE) || row(MORE + 1),
        "reduce" | "pwl" | "check" => columns(MORE) || rows(MORE + 1) || rows(MORE + 2),
        "undo" => rows(MORE) || rows(MORE + 1),
        "gate" => case.gate(MORE).qubits().iter().any(|q| *q >= n as u64),
        _ => false,
    }
}

/// The fields of the order, where there is one, and of the listed rows.
fn places_of(case: &Case) -> Option<(Option<usize>, usize)> {
    match case.call {
        "reduce" | "pwl" | "check" => Some((Some(MORE), MORE + 1)),
        "undo" => Some((None, MORE)),
        _ => None,
    }
}

/// The log that a call is given.
fn log_of(case: &Case) -> Option<&[u16]> {
    match case.call {
        "check" => Some(case.shorts(MORE + 3)),
        "undo" => Some(case.shorts(MORE + 2)),
        _ => None,
    }
}

/// Whether a number stands twice in the field, of an order or of listed rows.
fn repeated_in(case: &Case, field: Option<usize>) -> bool {
    let Some(field) = field else { return false };
    let mut sorted = case.shorts(field).to_vec();
    sorted.sort();
    sorted.windows(2).any(|pair| pair[0] == pair[1])
}

fn refusal_of_terms(case: &Case) -> Option<u8> {
    let n = case.number(0);
    let (x, z) = (case.words(1), case.words(2));
    let above = move |word: u64| n < 64 && word >> n != 0;
    first_fitting(vec![
        (1, Box::new(move || n < 1 || n > 64)),
        (2, Box::new(|| x.len() > TERMS)),
        (3, Box::new(|| z.len() != x.len() || parts(case) != [x.len(); 2])),
        (4, Box::new(move || [x, z, &[case.number(5), case.number(6)]].concat().into_iter().any(above))),
        (10, Box::new(|| x.windows(2).any(|pair| pair[0] > pair[1]))),
        (11, Box::new(|| case.call == "elemf" && [3, 4].iter().any(|i| !all_finite(case.words(*i))))),
    ])
}

/// The bras stand in the fields from 5 on, the kets in those from 8 on: words, real parts, imaginary parts.
const LISTS: [usize; 2] = [5, 8];

fn refusal_of_states(case: &Case) -> Option<u8> {
    let n = case.number(0);
    let (x, z) = (case.words(1), case.words(2));
    let above = move |word: u64| n < 64 && word >> n != 0;
    let parts_of = |at: usize, words: usize| [at, at + 1].iter().all(|i| case.ints(*i).len() == words);
    first_fitting(vec![
        (1, Box::new(move || n < 1 || n > 64)),
        (2, Box::new(|| x.len() > TERMS || LISTS.iter().any(|at| case.words(*at).len() > VECTORS))),
        (
            3,
            Box::new(move || {
                let lists_fit = LISTS.iter().all(|at| parts_of(at + 1, case.words(*at).len()));
                z.len() != x.len() || !parts_of(3, x.len()) || !lists_fit
            }),
        ),
        (4, Box::new(move || [x, z, case.words(5), case.words(8)].concat().into_iter().any(above))),
        (10, Box::new(|| x.windows(2).any(|pair| pair[0] > pair[1]))),
    ])
}

fn parts(case: &Case) -> [usize; 2] {
    [3, 4].map(|i| if case.call == "elemf" { case.words(i).len() } else { case.ints(i).len() })
}

fn all_finite(bits: &[u64]) -> bool {
    bits.iter().all(|bits| f64::from_bits(*bits).is_finite())
}

// ---- answers of calls that are not refused

fn worked(case: &Case) -> String {
    match case.call {
        "phase1" | "act1" => on_words(case),
        "elemf" => elemf(case),
        "elemi" => elemi(case),
        "elems" => elems(case),
        _ => over_set(case),
    }
}

fn on_words(case: &Case) -> String {
    let v: Vec<u64> = (0..case.fields.len()).map(|i| case.number(i)).collect();
    if case.call == "phase1" {
        return format!("ok {}", phase(&word(v[0], v[1]), &word(v[2], v[3])));
    }
    format!("ok {} {:x}", action(&word(v[0], v[1]), &[v[2]]), v[2] ^ v[0])
}

fn text(set: &Set) -> String {
    format!("{} {} {}", hexes(&set.x), hexes(&set.z), hexes(&set.p))
}

fn rows_text(n: usize, rows: &[Row]) -> String {
    text(&packed(n, rows))
}

fn over_set(case: &Case) -> String {
    let n = case.number(0) as usize;
    let mut rows = unpacked(n, &set_at(case, SET));
    match case.call {
        "get" => format!("ok {:?}", rows[case.number(MORE) as usize].paulis[case.number(MORE + 1) as usize]),
        "set" => set_qubit(case, n, rows),
        "count" => count(&rows[case.number(MORE) as usize]),
        "act" => act(case, &rows),
        "phase" | "phaset" => {
            let (a, b) = two(case, &rows);
            format!("ok {}", phase(&a.paulis, &b.paulis))
        }
        "comm" => {
            let (a, b) = two(case, &rows);
            format!("ok {}", commute(&a.paulis, &b.paulis) as u8)
        }
        "matrix" => format!("ok {}", hexes(&matrix(&rows))),
        "central" => {
            let row = &rows[case.number(MORE) as usize].paulis;
            format!("ok {}", rows.iter().all(|other| commute(row, &other.paulis)) as u8)
        }
        "pair" => pair(case, n, &rows),
        "imul" => {
            let (a, b) = two(case, &rows);
            let number = clashes(&a.paulis, &b.paulis);
            multiply(&mut rows, case.number(MORE) as usize, case.number(MORE + 1) as usize);
            format!("ok {} {number}", rows_text(n, &rows))
        }
        "pwl" => file(case, n, rows),
        "check" => check(case, n, rows),
        "undo" => undo(case, n, rows),
        "gate" => {
            rows.iter_mut().for_each(|row| conjugate(row, case.gate(MORE)));
            format!("ok {}", rows_text(n, &rows))
        }
        "write" => written(&text_of_row(case)),
        "read" | "readx" => {
            rows[case.number(MORE) as usize].paulis = texts::read(n, case.text(MORE + 1)).expect("the text of a row");
            format!("ok {}", rows_text(n, &rows))
        }
        _ => reduction(case, n, rows),
    }
}

/// The text of the row that a `write` names.
fn text_of_row(case: &Case) -> String {
    let rows = unpacked(case.number(0) as usize, &set_at(case, SET));
    texts::written(&rows[case.number(MORE) as usize].paulis)
}

fn written(text: &str) -> String {
    match text {
        "" => "ok 0".to_string(),
        _ => format!("ok {} {text}", text.len()),
    }
}

fn two<'a>(case: &Case, rows: &'a [Row]) -> (&'a Row, &'a Row) {
    (&rows[case.number(MORE) as usize], &rows[case.number(MORE + 1) as usize])
}

fn set_qubit(case: &Case, n: usize, mut rows: Vec<Row>) -> String {
    let to = match case.fields[MORE + 2] {
        Field::Letter('X') => Pauli::X,
        Field::Letter('Y') => Pauli::Y,
        Field::Letter('Z') => Pauli::Z,
        _ => Pauli::I,
    };
    rows[case.number(MORE) as usize].paulis[case.number(MORE + 1) as usize] = to;
    format!("ok {}", rows_text(n, &rows))
}

fn count(row: &Row) -> String {
    let of = |pauli: Pauli| row.paulis.iter().filter(|p| **p == pauli).count();
    format!("ok {} {} {} {}", of(Pauli::I), of(Pauli::X), of(Pauli::Y), of(Pauli::Z))
}

fn act(case: &Case, rows: &[Row]) -> String {
    let (row, state) = (&rows[case.number(MORE) as usize], case.words(MORE + 1));
    let mut after = state.to_vec();
    for (q, pauli) in row.paulis.iter().enumerate() {
        after[q / 64] ^= (pauli.has_x() as u64) << (q % 64);
    }
    format!("ok {} {}", action(&row.paulis, state), hexes(&after))
}

fn matrix(rows: &[Row]) -> Vec<u64> {
    let w = words_for(rows.len());
    let mut out = vec![0; rows.len() * w];
    for (i, a) in rows.iter().enumerate() {
        for (j, b) in rows.iter().enumerate() {
            out[i * w + j / 64] |= (commute(&a.paulis, &b.paulis) as u64) << (j % 64);
        }
    }
    out
}

fn pair(case: &Case, n: usize, left: &[Row]) -> String {
    let right = unpacked(n, &set_at(case, MORE));
    let out: Vec<Row> = left.iter().zip(&right).map(|(l, r)| row_product(l, r)).collect();
    let numbers: Vec<usize> = left.iter().zip(&right).map(|(l, r)| clashes(&l.paulis, &r.paulis)).collect();
    format!("ok {} {}", rows_text(n, &out), joined(&numbers))
}

/// `reduce`, `reduceall`, and `pwl` where its log is full. `reduceall` goes through all columns, and all rows are listed.
fn reduction(case: &Case, n: usize, mut rows: Vec<Row>) -> String {
    let all_columns: Vec<u16> = (0..2 * n as u16).collect();
    let all_rows: Vec<u16> = (0..rows.len() as u16).collect();
    let lists = match case.call {
        "reduce" | "pwl" => lists_of(case),
        _ => Lists { order: &all_columns, listed: &all_rows, extra: &[] },
    };
    let Some(Field::Number(units)) = case.fields.last() else { unreachable!("the last field is the log's length") };
    let capacity = units / 2;
    let done = reduce(&mut rows, lists, capacity as usize);
    let log = joined(&done.log.iter().map(|(a, b)| format!("{a}:{b}")).collect::<Vec<_>>());
    let head = if done.full { format!("refuse 8 {capacity}") } else { format!("ok {} {}", done.log.len(), done.t) };
    format!("{head} {log} {}", rows_text(n, &rows))
}

/// The bytes of a finished run's file, as many as `verdict` takes; where the log is full, the answer of `reduce`.
fn file(case: &Case, n: usize, rows: Vec<Row>) -> String {
    let (start, lists) = (set_at(case, SET), lists_of(case));
    let mut claimed = rows.clone();
    let done = reduce(&mut claimed, lists, case.number(MORE + 3) as usize / 2);
    if done.full {
        return reduction(case, n, rows);
    }
    let bytes = pwl::image(&pwl::Record {
        n: n as u16,
        m: start.m as u16,
        order: lists.order.to_vec(),
        listed: lists.listed.to_vec(),
        extra: lists.extra.to_vec(),
        start,
        log: done.units(),
        claim: packed(n, &claimed),
    });
    if bytes.len() > pwl::LONGEST {
        return "refuse 14".to_string();
    }
    format!("ok {}", bytes.iter().map(|byte| format!("{byte:02x}")).collect::<String>())
}

fn lists_of(case: &Case) -> Lists<'_> {
    Lists { order: case.shorts(MORE), listed: case.shorts(MORE + 1), extra: case.shorts(MORE + 2) }
}

fn check(case: &Case, n: usize, mut rows: Vec<Row>) -> String {
    let (lists, log) = (lists_of(case), case.shorts(MORE + 3));
    if let Some(k) = first_bad(rows.len(), lists, log) {
        return format!("ok bad {k} {}", rows_text(n, &rows));
    }
    replay(&mut rows, log);
    let claimed = unpacked(n, &set_at(case, MORE + 4));
    let verdict = match rows.iter().zip(&claimed).position(|(row, claim)| row != claim) {
        Some(r) => format!("differs {r}"),
        None if is_reduced(&rows, lists) => "yes".to_string(),
        None => "notreduced".to_string(),
    };
    format!("ok {verdict} {}", rows_text(n, &rows))
}

/// The entries are taken back, last to first, if all are good.
fn undo(case: &Case, n: usize, mut rows: Vec<Row>) -> String {
    let lists = Lists { order: &[], listed: case.shorts(MORE), extra: case.shorts(MORE + 1) };
    if let Some(k) = first_bad(rows.len(), lists, case.shorts(MORE + 2)) {
        return format!("ok bad {k} {}", rows_text(n, &rows));
    }
    walk_back(&mut rows, case.shorts(MORE + 2));
    format!("ok done {}", rows_text(n, &rows))
}

/// The places of the block's terms with the exponents of their actions.
fn block(case: &Case) -> Vec<(usize, u8)> {
    block_of(case, case.number(5), case.number(6))
}

fn block_of(case: &Case, bra: u64, ket: u64) -> Vec<(usize, u8)> {
    let (x, z) = (case.words(1), case.words(2));
    let places = (0..x.len()).filter(|i| x[*i] == bra ^ ket);
    places.map(|i| (i, action(&word(x[i], z[i]), &[ket]))).collect()
}

fn turned<T: std::ops::Neg<Output = T>>(a: T, b: T, exponent: u8) -> (T, T) {
    match exponent {
        0 => (a, b),
        1 => (-b, a),
        2 => (-a, -b),
        _ => (b, -a),
    }
}

fn elemf(case: &Case) -> String {
    let block = block(case);
    let (mut re, mut im) = (0.0f64, 0.0f64);
    for (i, exponent) in &block {
        let part = |field: usize| f64::from_bits(case.words(field)[*i]);
        let (a, b) = turned(part(3), part(4), *exponent);
        re += a;
        im += b;
        if !re.is_finite() || !im.is_finite() {
            return "refuse 12".to_string();
        }
    }
    if block.is_empty() {
        return "none".to_string();
    }
    format!("ok {:016x} {:016x}", re.to_bits(), im.to_bits())
}

fn elemi(case: &Case) -> String {
    let block = block(case);
    let (mut re, mut im) = (0i64, 0i64);
    for (i, exponent) in &block {
        let (a, b) = turned(case.ints(3)[*i] as i64, case.ints(4)[*i] as i64, *exponent);
        re += a;
        im += b;
    }
    if block.is_empty() {
        return "none".to_string();
    }
    format!("ok {re} {im}")
}

type Complex = (i128, i128);

/// Coefficient i of the parts in two fields.
fn coefficient(case: &Case, at: usize, i: usize) -> Complex {
    (case.ints(at)[i] as i128, case.ints(at + 1)[i] as i128)
}

/// The sum over all pairs, bra outer, ket inner; 16 where a number on the way leaves i64.
fn elems(case: &Case) -> String {
    let (mut re, mut im) = (0i128, 0i128);
    for i in 0..case.words(5).len() {
        for j in 0..case.words(8).len() {
            let (a, b) = coefficient(case, 6, i);
            let (c, d) = coefficient(case, 9, j);
            let first = [a * c, b * d, a * d, b * c, a * c + b * d, a * d - b * c];
            let (p, q) = (first[4], first[5]);
            let (e, f) = pair_element(case, i, j);
            let second = [p * e, q * f, p * f, q * e, p * e - q * f, p * f + q * e];
            re += second[4];
            im += second[5];
            if first.iter().chain(&second).chain(&[re, im]).any(|number| i64::try_from(*number).is_err()) {
                return "refuse 16".to_string();
            }
        }
    }
    format!("ok {re} {im}")
}

/// The element between bra i and ket j: 0 where there is no block.
fn pair_element(case: &Case, i: usize, j: usize) -> Complex {
    let (mut re, mut im) = (0, 0);
    for (k, exponent) in block_of(case, case.words(5)[i], case.words(8)[j]) {
        let (a, b) = coefficient(case, 3, k);
        let (a, b) = turned(a, b, exponent);
        re += a;
        im += b;
    }
    (re, im)
}

/// Whether f64 hold all numbers of an `elems` that is not refused: the absolute values of all parts of bras, of kets and of
/// terms, multiplied, are at most 2 to the 53.
pub fn exact_in_floats(case: &Case) -> bool {
    let size = |at: usize| [at, at + 1].iter().flat_map(|i| case.ints(*i)).map(|v| (*v as i128).abs()).sum::<i128>();
    size(6) * size(9) * size(3).max(1) <= EXACT as i128
}

// ---- floats that are whole numbers

/// 2 to the 53: up to this sum of absolute values a float sum of whole numbers is exact.
pub const EXACT: i64 = 1 << 53;

/// The whole number that these bits of an f64 are, where it is one and below 2 to the 100.
pub fn whole(bits: u64) -> Option<i128> {
    let value = f64::from_bits(bits);
    let fits = value.is_finite() && value.fract() == 0.0 && value.abs() < 2f64.powi(100);
    fits.then_some(value as i128)
}

/// The sum over the block in whole numbers, and the absolute values of all its parts added up.
pub struct WholeSum {
    pub parts: (i128, i128),
    pub size: i128,
}

/// That of an `elemf` that 1 to 11 do not refuse and whose block's parts are all whole numbers.
pub fn whole_sum(case: &Case) -> Option<WholeSum> {
    if case.call != "elemf" || refusal(case).is_some() {
        return None;
    }
    let mut sum = WholeSum { parts: (0, 0), size: 0 };
    for (i, exponent) in block(case) {
        let (re, im) = (whole(case.words(3)[i])?, whole(case.words(4)[i])?);
        let (a, b) = turned(re, im, exponent);
        sum.parts = (sum.parts.0 + a, sum.parts.1 + b);
        sum.size += re.abs() + im.abs();
    }
    Some(sum)
}
