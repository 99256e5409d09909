//! One function a call. Exponents are printed mod 4, since products of the Rust's `ComplexSign` are not reduced.

use std::collections::HashMap;

use lines::line::parsed_of_any_length;
use num_complex::Complex64;
use oracle::container::bit_matrix::AsBitMatrix;
use oracle::container::coeffs::complex_sign::{ComplexSign, ComplexSignVec};
use oracle::container::coeffs::traits::{NumRepr, NumReprVec};
use oracle::container::traits::{Elements, MutRefElements, RefElements};
use oracle::container::word_iters::WordIters;
use oracle::qubit::mode::{PauliMatrix, Qubits, SymplecticPart};
use oracle::qubit::pauli::cmpnt_major::cmpnt_list::CmpntList;
use oracle::qubit::pauli::cmpnt_major::mat_elem::{mat_elem_cmpnts_from_presorted, mat_elem_from_presorted};
use oracle::qubit::pauli::cmpnt_major::products::{mul_op_op_phase_u64, mul_op_state_u64};
use oracle::qubit::pauli::cmpnt_major::terms::{AsViewMut, Terms};
use oracle::qubit::state::cmpnt_list::CmpntList as StateList;
use oracle::qubit::state::terms::Terms as States;
use oracle::qubit::traits::{PauliWordMutRef, PauliWordRef};

use crate::fields::*;

type Set = Terms<ComplexSign>;

/// The answer to a line, or nothing where there is none. The Rust has no limits, so the line has none.
pub fn answer(line: &str) -> Option<String> {
    let case = parsed_of_any_length(line)?;
    let f = &mut Fields(case.fields.iter());
    match case.call {
        "phase1" => phase1(f),
        "act1" => act1(f),
        "elemf" => elemf(f),
        "elemi" => elemi(f),
        "elems" => elems(f),
        _ => {
            let (n, m) = (f.number()?, f.number()?);
            let set = f.set(n, m)?;
            over_set(case.call, n, set, f)
        }
    }
}

fn over_set(call: &str, n: usize, set: Set, f: &mut Fields) -> Option<String> {
    let rows = &set.word_iters;
    match call {
        "get" => get(rows, f),
        "set" => set_qubit(set, f),
        "count" => count(rows, f),
        "act" => act(n, rows, f),
        "phase" | "phaset" => phase(rows, f),
        "comm" => comm(rows, f),
        "matrix" => Some(matrix(rows)),
        "central" => central(rows, f),
        "pair" => pair(n, set, f),
        "imul" => imul(n, set, f),
        "gate" => gate(set, f),
        "write" => write(rows, f),
        "reduce" => reduce(n, set, f),
        "reduceall" => reduce_all(n, set, f),
        "check" => replay(set, f),
        "undo" => undo(set, f),
        _ => None,
    }
}

fn exponent(phase: ComplexSign) -> u8 {
    phase.0 & 3
}

fn phase1(f: &mut Fields) -> Option<String> {
    let (ax, az, bx, bz) = (f.word()?, f.word()?, f.word()?, f.word()?);
    Some(format!("ok {}", exponent(mul_op_op_phase_u64(ax, az, bx, bz))))
}

fn act1(f: &mut Fields) -> Option<String> {
    let (state, phase) = mul_op_state_u64(f.word()?, f.word()?, f.word()?);
    Some(format!("ok {} {state:x}", exponent(phase)))
}

fn get(rows: &CmpntList, f: &mut Fields) -> Option<String> {
    let (row, q) = (f.number()?, f.number()?);
    Some(format!("ok {}", rows.get_elem_ref(row).get_pauli(q).ok()?))
}

fn set_qubit(mut set: Set, f: &mut Fields) -> Option<String> {
    let (row, q, to) = (f.number()?, f.number()?, f.pauli()?);
    set.word_iters.get_elem_mut_ref(row).set_pauli(q, to).ok()?;
    Some(format!("ok {}", set_text(&set)))
}

fn count(rows: &CmpntList, f: &mut Fields) -> Option<String> {
    use PauliMatrix::*;
    let row = rows.get_elem_ref(f.number()?);
    let [i, x, y, z] = [I, X, Y, Z].map(|pauli| row.count(pauli));
    Some(format!("ok {i} {x} {y} {z}"))
}

/// A list of the one basis state with these words.
fn state(n: usize, words: &[u64]) -> StateList {
    let mut out = StateList::new(Qubits::from_count(n));
    out.push_u64it(words.iter().copied());
    out
}

fn act(n: usize, rows: &CmpntList, f: &mut Fields) -> Option<String> {
    let row = rows.get_elem_ref(f.number()?);
    let mut ket = state(n, f.words()?);
    let phase = ket.get_elem_mut_ref(0).imul_by_op(row);
    Some(format!("ok {} {}", exponent(phase), hex(ket.elem_u64it(0))))
}

fn phase(rows: &CmpntList, f: &mut Fields) -> Option<String> {
    let (a, b) = rows.get_pair_refs(f.number()?, f.number()?);
    Some(format!("ok {}", exponent(a.phase_of_mul(b))))
}

fn comm(rows: &CmpntList, f: &mut Fields) -> Option<String> {
    let (a, b) = rows.get_pair_refs(f.number()?, f.number()?);
    Some(format!("ok {}", a.commutes_with(b) as u8))
}

fn matrix(rows: &CmpntList) -> String {
    let out = rows.compatibility_matrix();
    format!("ok {}", hex((0..out.len()).flat_map(|i| out[i].to_vec())))
}

fn central(rows: &CmpntList, f: &mut Fields) -> Option<String> {
    Some(format!("ok {}", rows.belongs_to_centralizer(f.number()?) as u8))
}

/// The rows are those of `cmpnts_mul_pairwise`, and where the phases of left and right add up to 0 mod 4, so are the
/// phases: it takes bare words. The other phases are those of the products of the terms, which carry their phases as
/// `ComplexSign` coefficients. Where both speak they have to agree, in every bit and every phase that cancels.
fn pair(n: usize, left: Set, f: &mut Fields) -> Option<String> {
    let right = f.set(n, left.len())?;
    let (out, bare) = left.word_iters.cmpnts_mul_pairwise(&right.word_iters).ok()?;
    let terms = products_of_terms(left.clone(), &right);
    let exponents = |phases: &ComplexSignVec| phases.copied_iter().map(exponent).collect::<Vec<_>>();
    let (bare, signed) = (exponents(&bare), exponents(&terms.coeffs));
    let own = exponents(&left.coeffs).into_iter().zip(exponents(&right.coeffs)).collect::<Vec<_>>();
    let cancels = |i: &usize| (own[*i].0 + own[*i].1) % 4 == 0;
    let (rows, same) = (rows_text(&out), (0..own.len()).filter(cancels).all(|i| bare[i] == signed[i]));
    if rows != rows_text(&terms.word_iters) || !same {
        return Some("the Rust's two products differ".to_string());
    }
    let phases = (0..own.len()).map(|i| if cancels(&i) { bare[i] } else { signed[i] }).collect::<Vec<_>>();
    let numbers = (0..own.len()).map(|i| clashes(n, &left.word_iters, i, &right.word_iters, i));
    Some(format!("ok {rows} {} {}", exponents_text(&phases), joined(numbers)))
}

fn imul(n: usize, mut set: Set, f: &mut Fields) -> Option<String> {
    let (a, b) = (f.number()?, f.number()?);
    let number = clashes(n, &set.word_iters, a, &set.word_iters, b);
    set.imul(a, b);
    Some(format!("ok {} {number}", set_text(&set)))
}

/// Each row's word and sign by the Rust's `conj_clifford` of terms, the sign being its coefficient's.
fn gate(mut set: Set, f: &mut Fields) -> Option<String> {
    let gate = f.gate()?;
    set.conj_clifford(gate);
    Some(format!("ok {}", set_text(&set)))
}

/// The text of a row behind its length, which stands alone where it is 0.
fn write(rows: &CmpntList, f: &mut Fields) -> Option<String> {
    let text = rows.fmt_elem(f.number()?);
    Some(format!("ok {} {text}", text.len()).trim_end().to_string())
}

fn reduce(n: usize, set: Set, f: &mut Fields) -> Option<String> {
    let order = f.places()?.into_iter().map(|c| column(n, c)).collect::<Vec<_>>();
    let (listed, extra, units) = (f.places()?, f.places()?, f.number()?);
    let mut done = set.clone();
    let log = done.canonicalize(&order, &listed, &extra).ok()?;
    Some(reduction(set, done, &order, &listed, &log, units / 2))
}

fn reduce_all(n: usize, set: Set, f: &mut Fields) -> Option<String> {
    let units = f.number()?;
    let order = (0..2 * n).map(|c| column(n, c)).collect::<Vec<_>>();
    let listed = (0..set.len()).collect::<Vec<_>>();
    let mut done = set.clone();
    let log = done.canonicalize_all();
    Some(reduction(set, done, &order, &listed, &log, units / 2))
}

/// The Rust has no capacity: a log too long for it is cut, and the rows that go with the cut log are the Rust's own
/// products replayed from the start.
fn reduction(
    start: Set,
    done: Set,
    order: &[(usize, SymplecticPart)],
    listed: &[usize],
    log: &[(usize, usize)],
    capacity: usize,
) -> String {
    if log.len() <= capacity {
        let t = pivots(&done.word_iters, order, listed);
        return format!("ok {} {t} {} {}", log.len(), log_text(log), set_text(&done));
    }
    let kept = &log[..capacity];
    format!("refuse 8 {capacity} {} {}", log_text(kept), set_text(&replayed(start, kept)))
}

/// The Rust does not return its count of pivots. After it, exactly the pivots among the listed rows have a bit of the
/// order set.
fn pivots(rows: &CmpntList, order: &[(usize, SymplecticPart)], listed: &[usize]) -> usize {
    let has = |row: usize| {
        order.iter().any(|(q, part)| match part {
            SymplecticPart::X => rows.x_part().get_bit_unchecked(row, *q),
            SymplecticPart::Z => rows.z_part().get_bit_unchecked(row, *q),
        })
    };
    listed.iter().filter(|row| has(**row)).count()
}

fn replayed(mut set: Set, log: &[(usize, usize)]) -> Set {
    log.iter().for_each(|(target, source)| set.imul(*target, *source));
    set
}

/// The Rust has no checker. The rows that a log leads to are its own products.
fn replay(set: Set, f: &mut Fields) -> Option<String> {
    let (_order, _listed, _extra) = (f.field()?, f.field()?, f.field()?);
    Some(format!("replay {}", set_text(&replayed(set, &f.log()?))))
}

/// The Rust has no undo. The rows are its own products, entry by entry from the last on, the source's coefficient being its
/// conjugate meanwhile: that of a power of i is its inverse, and a Pauli is its own.
fn undo(mut set: Set, f: &mut Fields) -> Option<String> {
    let (_listed, _extra) = (f.field()?, f.field()?);
    for (target, source) in f.log()?.into_iter().rev() {
        let own = set.coeffs.get_unchecked(source);
        set.coeffs.set_unchecked(source, own.conj());
        set.imul(target, source);
        set.coeffs.set_unchecked(source, own);
    }
    Some(format!("ok done {}", set_text(&set)))
}

/// The terms of a matrix element, with where each block of equal X words starts: in the Rust a map that the caller
/// makes once. Its own maker sorts the terms first, which would change the order of the sum.
struct Operator {
    terms: Terms<Complex64>,
    blocks: HashMap<u64, usize>,
}

fn operator(n: usize, x: &[u64], z: &[u64], coeffs: Vec<Complex64>) -> Operator {
    let mut blocks = HashMap::new();
    x.iter().enumerate().for_each(|(i, word)| {
        blocks.entry(*word).or_insert(i);
    });
    Operator { terms: Terms::from((rows(n, x.len(), x, z), coeffs)), blocks }
}

/// The Rust's element, or nothing where no term has that X: there it gives zero.
fn element(n: usize, op: &Operator, bra: u64, ket: u64) -> Option<Complex64> {
    let (bras, kets) = (state(n, &[bra]), state(n, &[ket]));
    let sum = mat_elem_cmpnts_from_presorted(&op.terms, &op.blocks, &bras.get_elem_ref(0), &kets.get_elem_ref(0));
    if op.blocks.contains_key(&(bra ^ ket)) {
        return Some(sum);
    }
    assert_eq!((sum.re.to_bits(), sum.im.to_bits()), (0, 0));
    None
}

fn elemf(f: &mut Fields) -> Option<String> {
    let (n, x, z) = (f.number()?, f.words()?, f.words()?);
    let (re, im) = (f.words()?, f.words()?);
    let float = |bits: &u64| f64::from_bits(*bits);
    let coeffs = re.iter().zip(im).map(|(re, im)| Complex64::new(float(re), float(im))).collect();
    let sum = element(n, &operator(n, x, z, coeffs), f.word()?, f.word()?);
    Some(match sum {
        Some(sum) => format!("ok {:016x} {:016x}", sum.re.to_bits(), sum.im.to_bits()),
        None => "none".to_string(),
    })
}

/// The Rust has no whole-number coefficients. Its complex ones hold i32 parts and their sums exactly.
fn elemi(f: &mut Fields) -> Option<String> {
    let (n, x, z) = (f.number()?, f.words()?, f.words()?);
    let (re, im) = (f.ints()?, f.ints()?);
    let coeffs = re.iter().zip(im).map(|(re, im)| Complex64::new(*re as f64, *im as f64)).collect();
    let sum = element(n, &operator(n, x, z, coeffs), f.word()?, f.word()?);
    Some(match sum {
        Some(sum) => format!("ok {} {}", sum.re as i64, sum.im as i64),
        None => "none".to_string(),
    })
}

fn complex(re: &[i32], im: &[i32]) -> Vec<Complex64> {
    re.iter().zip(im).map(|(re, im)| Complex64::new(*re as f64, *im as f64)).collect()
}

/// The words of a line with their whole coefficients, as a list of basis states.
fn states(n: usize, f: &mut Fields) -> Option<States<Complex64>> {
    let words = f.words()?;
    let mut list = StateList::new(Qubits::from_count(n));
    words.iter().for_each(|word| list.push_u64it([*word].into_iter()));
    Some(States::from((list, complex(f.ints()?, f.ints()?))))
}

/// States of many basis vectors. It is asked where f64 hold every number on the way.
fn elems(f: &mut Fields) -> Option<String> {
    let (n, x, z) = (f.number()?, f.words()?, f.words()?);
    let coeffs = complex(f.ints()?, f.ints()?);
    let op = operator(n, x, z, coeffs);
    let sum = mat_elem_from_presorted(&op.terms, &op.blocks, &states(n, f)?, &states(n, f)?);
    Some(format!("ok {} {}", sum.re as i64, sum.im as i64))
}
