//! Prints a table of times: the calls of this repository, from the archive of the crate `bawersun`, and the Rust's, on the
//! same random rows, in one process, and the limits in C. Before a call is timed
//! all sides do it once, and what they leave is compared. With --matrix-edges nothing is timed: the matrix is compared at
//! the row counts that are the edges of its blocks. With --limits: both limits at once, with the stack that each call takes
//! and the refusals one past the limits.

mod c_limits;
mod limits;
mod ours;
mod reducing;
mod rows;
mod small;
mod stack;
mod table;

use std::hint::black_box;

use lines::{random, rows as model};
use oracle::container::coeffs::complex_sign::ComplexSign;
use oracle::container::traits::{Elements, RefElements};
use oracle::container::word_iters::WordIters;
use oracle::fields;
use oracle::qubit::clifford;
use oracle::qubit::mode::Qubits;
use oracle::qubit::pauli::cmpnt_major::mat_elem::{mat_elem_cmpnts_from_presorted, mat_elem_from_presorted};
use oracle::qubit::pauli::cmpnt_major::terms::{AsViewMut, Terms};
use oracle::qubit::state::cmpnt_list::CmpntList as StateList;

use random::Random;
use rows::{Operator, Set, States, WholeOperator};
use table::{asked, line, side, time, FEW_RUNS, RUNS};

const QUBITS: usize = 1024;
const TERMS: usize = 65_536;

/// Row counts at which a block of 64 rows or of columns is full, one short or one over, up to the limit.
const EDGES: [usize; 11] = [1, 63, 64, 65, 127, 128, 129, 255, 256, 4095, 4096];

fn main() {
    match std::env::args().nth(1).as_deref() {
        Some("--limits") => limits::run(),
        Some("--stack") => limits::stack(),
        Some("--matrix-edges") => edges(),
        Some("--states") => pairs_alone(),
        Some("--growth") => reducing::growth(),
        Some("--short") => short(),
        _ => times(),
    }
}

fn pairs_alone() {
    let mut random = Random::of(1, 0);
    table::header(&format!("{RUNS} runs of each side"));
    many_states(&mut random);
}

/// Rows of 1 to 8 words.
fn short() {
    let mut random = Random::of(1, 0);
    table::header(&format!("{RUNS} runs of each side"));
    for words in [1, 2, 3, 4, 8] {
        let mut set = || Set::random(&mut random, 64 * words, 256);
        pairwise(&set(), &set());
        in_place(&set());
        reducing::reduction(&set());
    }
    // one row less is reduced by the plain loops
    for words in [1, 4, 16, 64] {
        for m in [63, 64] {
            reducing::reduction(&Set::random(&mut random, 64 * words, m));
        }
    }
}

fn many_states(random: &mut Random) {
    states(random, 4, 256, 16);
    for block in [1, 16] {
        states(random, 256, TERMS, block);
    }
}

fn edges() {
    let mut random = Random::of(1, 0);
    EDGES.iter().for_each(|m| edge(&mut random, *m));
}

fn times() {
    let mut random = Random::of(1, 0);
    if let Some(why) = c_limits::NONE {
        println!("{why}");
    }
    table::long_header();
    for m in [64, 256, 4096] {
        matrix(&Set::random(&mut random, QUBITS, m));
    }
    for m in [64, 256, 4096] {
        pairwise(&Set::random(&mut random, QUBITS, m), &Set::random(&mut random, QUBITS, m));
    }
    for m in [64, 256, 4096] {
        in_place(&Set::random(&mut random, QUBITS, m));
    }
    for m in [64, 256, 4096] {
        gates(&Set::random(&mut random, QUBITS, m));
    }
    for m in [64, 256, 4096] {
        reducing::reduction(&Set::random(&mut random, QUBITS, m));
    }
    reducing::reduction(&Set::random(&mut random, 2 * QUBITS, 4096));
    for m in [256, 4096] {
        reducing::with_lists(&Set::random(&mut random, QUBITS, m));
    }
    for m in [64, 256] {
        small::undo(&Set::random(&mut random, QUBITS, m));
    }
    for m in [64, 4096] {
        let set = Set::random(&mut random, QUBITS, m);
        small::reading(&set);
        small::setting(&set);
        small::acting(&set);
    }
    for m in [64, 1024] {
        small::central(&Set::random(&mut random, QUBITS, m));
    }
    element(&mut random, 64, 16);
    for block in [TERMS, 16] {
        element(&mut random, TERMS, block);
    }
    many_states(&mut random);
}

/// The matrix of m rows of 65 qubits by ours, by the Rust, by the model qubit by qubit, and by C.
fn edge(random: &mut Random, m: usize) {
    const N: usize = 65;
    let mut set = Set::random(random, 128, m);
    set.n = N;
    for words in [&mut set.x, &mut set.z] {
        words.iter_mut().skip(1).step_by(2).for_each(|word| *word &= 1);
    }
    let w = m.div_ceil(64);
    let mut out = vec![!0; m * w];
    assert_eq!(ours::compatibility_matrix(&set, &mut out), 0);
    let name = format!("the matrix of {m} rows");
    let ours = fields::hex(out.iter().copied());
    let rust = set.terms().word_iters.compatibility_matrix();
    agree(&name, ours.clone(), fields::hex((0..m).flat_map(|i| rust[i].to_vec())));
    let rows = model::unpacked(N, &model::Set { m, x: set.x.clone(), z: set.z.clone(), p: set.phases.clone() });
    let mut plain = vec![0; m * w];
    for (i, a) in rows.iter().enumerate() {
        for (j, b) in rows.iter().enumerate() {
            plain[i * w + j / 64] |= (model::commute(&a.paulis, &b.paulis) as u64) << (j % 64);
        }
    }
    agree(&name, ours.clone(), fields::hex(plain.into_iter()));
    for (limit, work) in c_limits::MATRIX {
        let mut out = vec![!0; m * w];
        work(&set, &mut out);
        agree(&format!("{name}, {limit}"), ours.clone(), fields::hex(out.into_iter()));
    }
    println!("{name}: ours, the Rust, the model and {} in C agree", c_limits::MATRIX.len());
}

/// The rows and phases of a set and of the Rust's, as text.
fn text(set: &Set) -> String {
    fields::set_text(&set.terms())
}

fn agree(name: &str, ours: String, rust: String) {
    if ours != rust {
        eprintln!("bench: {name}: the two sides do not agree");
        std::process::exit(1);
    }
}

fn size(set: &Set) -> String {
    format!("{} rows of {} qubits", set.m, set.n)
}

/// How often a side is timed at m rows.
fn runs(m: usize) -> usize {
    if m > 256 {
        FEW_RUNS
    } else {
        RUNS
    }
}

fn matrix(set: &Set) {
    let name = "compatibility_matrix";
    if !asked(name) {
        return;
    }
    let m = set.m;
    let rust = set.terms().word_iters;
    let mut out = vec![!0; m * m.div_ceil(64)];
    assert_eq!(ours::compatibility_matrix(set, &mut out), 0);
    let matrix = rust.compatibility_matrix();
    agree(name, fields::hex(out.iter().copied()), fields::hex((0..m).flat_map(|i| matrix[i].to_vec())));
    let calls = (65_536 / (m * m)).max(1);
    let limit = |(name, work): (&'static str, c_limits::Matrix)| {
        let mut other = vec![!0; out.len()];
        work(set, &mut other);
        agree(name, fields::hex(other.iter().copied()), fields::hex(out.iter().copied()));
        (name, side(calls, move || time(|| (0..calls).for_each(|_| work(black_box(set), black_box(&mut other))))))
    };
    let others = c_limits::MATRIX.into_iter().map(limit).collect();
    line(
        name,
        &size(set),
        runs(m),
        side(calls, || {
            time(|| (0..calls).for_each(|_| assert_eq!(ours::compatibility_matrix(black_box(set), &mut out), 0)))
        }),
        side(calls, || time(|| (0..calls).for_each(|_| drop(black_box(black_box(&rust).compatibility_matrix()))))),
        others,
    );
}

fn pairwise(left: &Set, right: &Set) {
    let name = "cmpnts_mul_pairwise";
    if !asked(name) {
        return;
    }
    let m = left.m;
    let (rust_left, rust_right) = (left.terms().word_iters, right.terms().word_iters);
    let ones = |words: &[u64]| vec![!0; words.len()];
    let blank = || Set { n: left.n, m, x: ones(&left.x), z: ones(&left.z), phases: ones(&left.phases) };
    let mut out = blank();
    let mut clashes = vec![!0u16; m];
    assert_eq!(ours::cmpnts_mul_pairwise(left, right, &mut out, &mut clashes), 0);
    agree(name, text(&out), fields::set_text(&fields::products_of_terms(left.terms(), &right.terms())));
    let numbers = (0..m).map(|i| fields::clashes(left.n, &rust_left, i, &rust_right, i));
    agree(name, fields::joined(clashes.iter()), fields::joined(numbers));
    let calls = 25_600_usize.div_ceil(m);
    let limit = |(name, work): (&'static str, c_limits::Pairwise)| {
        let mut other = blank();
        work(left, right, &mut other);
        // it has no phases
        other.phases = out.phases.clone();
        agree(name, text(&other), text(&out));
        let run =
            move || time(|| (0..calls).for_each(|_| work(black_box(left), black_box(right), black_box(&mut other))));
        (name, side(calls, run))
    };
    let others = c_limits::PAIRWISE.into_iter().map(limit).collect();
    line(
        name,
        &size(left),
        RUNS,
        side(calls, || {
            time(|| {
                for _ in 0..calls {
                    assert_eq!(ours::cmpnts_mul_pairwise(black_box(left), black_box(right), &mut out, &mut clashes), 0);
                }
            })
        }),
        side(calls, || {
            time(|| {
                for _ in 0..calls {
                    drop(black_box(black_box(&rust_left).cmpnts_mul_pairwise(black_box(&rust_right)).unwrap()));
                }
            })
        }),
        others,
    );
}

/// Each row times the next one, all around.
fn in_place(set: &Set) {
    let name = "imul";
    if !asked(name) {
        return;
    }
    let m = set.m;
    let (mut ours, mut rust) = (set.clone(), set.terms());
    let sweep = |set: &mut Set| (0..m).for_each(|i| assert_eq!(ours::imul(set, black_box(i), (i + 1) % m), 0));
    let rust_sweep = |set: &mut Terms<ComplexSign>| (0..m).for_each(|i| set.imul(black_box(i), (i + 1) % m));
    sweep(&mut ours);
    rust_sweep(&mut rust);
    agree(name, text(&ours), fields::set_text(&rust));
    let sweeps = 25_600_usize.div_ceil(m);
    let limit = |(name, work): (&'static str, c_limits::InPlace)| {
        let mut other = c_limits::Rows::of(set);
        work(&mut other);
        agree(name, other.are(&ours).to_string(), true.to_string());
        (name, side(sweeps * m, move || time(|| (0..sweeps).for_each(|_| work(black_box(&mut other))))))
    };
    let ways = c_limits::IN_PLACE.into_iter().map(limit).collect();
    line(
        name,
        &size(set),
        RUNS,
        side(sweeps * m, || time(|| (0..sweeps).for_each(|_| sweep(black_box(&mut ours))))),
        side(sweeps * m, || time(|| (0..sweeps).for_each(|_| rust_sweep(black_box(&mut rust))))),
        ways,
    );
}

/// Each gate on the qubits of one word, or from one word to another, on every row. Ours tests the whole set at each call; the Rust
/// tests nothing.
fn gates(set: &Set) {
    type Ours = fn(&mut Set, usize) -> u8;
    type Rust = fn(usize) -> clifford::Gate;
    const GATES: [(&str, Ours, Rust); 3] = [
        ("conj_clifford, H", |set, q| ours::conj_h(set, q), clifford::h),
        ("conj_clifford, S", |set, q| ours::conj_s(set, q), clifford::s),
        (
            "conj_clifford, CX",
            |set, q| ours::conj_cx(set, q, q + 500),
            |q| clifford::cx(q, q + 500).expect("two qubits"),
        ),
    ];
    for (name, gate, rust_gate) in GATES {
        if !asked(name) {
            continue;
        }
        let (mut ours, mut rust) = (set.clone(), set.terms());
        let sweep = |set: &mut Set| (64..128).for_each(|q| assert_eq!(gate(set, black_box(q)), 0));
        let rust_sweep =
            |set: &mut Terms<ComplexSign>| (64..128).for_each(|q| set.conj_clifford(rust_gate(black_box(q))));
        sweep(&mut ours);
        rust_sweep(&mut rust);
        agree(name, text(&ours), fields::set_text(&rust));
        let limit = |(name, work): (&'static str, c_limits::Gate)| {
            let mut other = c_limits::Rows::of(set);
            let work = move |rows: &mut c_limits::Rows| (64..128).for_each(|q| work(rows, black_box(q), q + 500));
            work(&mut other);
            agree(name, other.are(&ours).to_string(), true.to_string());
            (name, side(64, move || time(|| work(black_box(&mut other)))))
        };
        let ways = c_limits::GATES.into_iter().filter(|way| way.0 == name).map(limit).collect();
        line(
            name,
            &size(set),
            RUNS,
            side(64, || time(|| sweep(black_box(&mut ours)))),
            side(64, || time(|| rust_sweep(black_box(&mut rust)))),
            ways,
        );
    }
}

/// The element of the block in the middle.
fn element(random: &mut Random, terms: usize, block: usize) {
    let name = "mat_elem_cmpnts_from_presorted";
    let op = Operator::random(random, terms, block);
    if !asked(name) {
        return;
    }
    let (terms, blocks) = op.terms();
    let ket = random.word();
    let x = op.x[op.x.len() / 2];
    let bra = ket ^ x;
    let state = |word: u64| {
        let mut out = StateList::new(Qubits::from_count(op.n));
        out.push_u64it([word].into_iter());
        out
    };
    let (bras, kets) = (state(bra), state(ket));
    let rust = || {
        mat_elem_cmpnts_from_presorted(
            black_box(&terms),
            black_box(&blocks),
            &black_box(&bras).get_elem_ref(0),
            &black_box(&kets).get_elem_ref(0),
        )
    };
    let bits = |re: f64, im: f64| format!("{:x} {:x}", re.to_bits(), im.to_bits());
    let (code, re, im) = ours::mat_elem(&op, bra, ket);
    assert_eq!(code, 0);
    let sum = rust();
    agree(name, bits(re, im), bits(sum.re, sum.im));
    let (calls, rust_calls) = (5 * TERMS / op.x.len(), 5 * TERMS / block);
    let first = op.x.partition_point(|word| *word < x);
    let place = c_limits::Block { ket, first, last: first + block };
    let op = &op;
    let limit = |(name, work): (&'static str, c_limits::Element)| {
        let (real, imag) = work(op, place);
        agree(name, bits(real, imag), bits(re, im));
        (name, side(calls, move || time(|| (0..calls).for_each(|_| _ = black_box(work(black_box(op), place))))))
    };
    let ways = c_limits::ELEMENT.into_iter().map(limit).collect();
    line(
        name,
        &format!("{} terms, {block} in the block", terms.len()),
        RUNS,
        side(calls, || time(|| (0..calls).for_each(|_| assert_eq!(ours::mat_elem(black_box(op), bra, ket).0, 0)))),
        side(rust_calls, || time(|| (0..rust_calls).for_each(|_| _ = black_box(rust())))),
        ways,
    );
}

/// The sum over all pairs of so many bras and kets; every pair has a block.
fn states(random: &mut Random, vectors: usize, terms: usize, block: usize) {
    let name = "mat_elem_from_presorted";
    let op = WholeOperator::random(random, terms, block);
    if !asked(name) {
        return;
    }
    let kinds = terms / block;
    let size = format!("{} pairs, {terms} terms, {block} in a block", vectors * vectors);
    let (terms, blocks) = op.terms();
    let words = |step: usize| (0..vectors).map(|i| (i * step % kinds) as u64).collect::<Vec<_>>();
    let (bra, ket) = (words((kinds / vectors).max(1)), words(1));
    let (bra, ket) = (States::random(random, bra), States::random(random, ket));
    let (bras, kets) = (bra.terms(op.n), ket.terms(op.n));
    let rust = || mat_elem_from_presorted(black_box(&terms), black_box(&blocks), black_box(&bras), black_box(&kets));
    let (code, re, im) = ours::mat_elem_of_states(&op, &bra, &ket);
    assert_eq!(code, 0);
    let sum = rust();
    agree(name, format!("{re} {im}"), format!("{} {}", sum.re, sum.im));
    let calls = (4096 / (vectors * vectors)).max(1);
    line(
        name,
        &size,
        RUNS,
        side(calls, || {
            time(|| {
                (0..calls).for_each(|_| assert_eq!(ours::mat_elem_of_states(black_box(&op), &bra, &ket).0, 0));
            })
        }),
        side(calls, || time(|| (0..calls).for_each(|_| _ = black_box(rust())))),
        vec![],
    );
}
