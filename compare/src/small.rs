//! Cases that are not random: all small ones, and every fault of every call alone and with every other.

use crate::limits::QUBITS;
use crate::line::{Case, Field, CALLS};
use crate::random::Random;
use crate::rows::{phase_words, unpacked, Set};
use crate::states;
use crate::valid::{call_on, further, lengths_of, of_call, of_terms, over_rows, rows};
use crate::{faults, gates, texts};

pub type Sink<'a> = &'a mut dyn FnMut(String);

pub fn all(sink: Sink) {
    one_word(sink);
    for n in 0..=2 {
        for m in 0..=2 {
            over_sets(n, m, sink);
        }
    }
    pairs(sink);
    reductions(sink);
    elements(sink);
    gates_on_rows(sink);
    refusals(sink);
}

/// Every call on every set of m rows of n qubits.
pub fn over_sets(n: usize, m: usize, sink: Sink) {
    sets(n, m, &mut |set| over_set(n, m, set, sink));
}

/// All sets of m rows of n qubits, phases included.
fn sets(n: usize, m: usize, sink: &mut dyn FnMut(&Set)) {
    let w = (n > 0) as usize;
    let words = |code: usize, shift: usize| -> Vec<u64> {
        (0..m * w).map(|r| (code >> (2 * n * r + shift * n)) as u64 & ((1 << n) - 1)).collect()
    };
    for code in 0..1usize << (2 * n * m) {
        for phases in 0..1usize << (2 * m) {
            let p: Vec<u8> = (0..m).map(|r| (phases >> (2 * r)) as u8 & 3).collect();
            sink(&Set { m, x: words(code, 0), z: words(code, 1), p: phase_words(&p) });
        }
    }
}

fn numbers(list: &[usize]) -> Vec<Field> {
    list.iter().map(|v| Field::Number(*v as u64)).collect()
}

fn one_word(sink: Sink) {
    for code in 0..256u64 {
        let part = |i: u64| Field::Word(code >> (2 * i) & 3);
        sink(Case::new("phase1", (0..4).map(part).collect()).line());
        if code < 64 {
            sink(Case::new("act1", (0..3).map(part).collect()).line());
        }
    }
}

/// Every call on one small set, with every number it may name; on the first set also with numbers one too large.
fn over_set(n: usize, m: usize, set: &Set, sink: Sink) {
    let mut put = |call: &str, more: Vec<Field>| sink(call_on(call, n, set, more).line());
    let past = set.x.iter().chain(&set.z).chain(&set.p).all(|word| *word == 0);
    let (rows, qubits) = (m + past as usize, n + past as usize);
    put("matrix", numbers(&[m]));
    for units in [0, 2, 100] {
        put("reduceall", numbers(&[units]));
    }
    for row in 0..rows {
        put("count", numbers(&[row]));
        put("central", numbers(&[row]));
        for q in 0..qubits {
            put("get", numbers(&[row, q]));
            for letter in ['I', 'X', 'Y', 'Z'] {
                put("set", [numbers(&[row, q]), vec![Field::Letter(letter)]].concat());
            }
        }
        for b in 0..rows {
            put("phase", numbers(&[row, b]));
            put("phaset", numbers(&[row, b]));
            put("comm", numbers(&[row, b]));
            put("imul", numbers(&[row, b]));
        }
        for state in 0..1u64 << n {
            let state = if n == 0 { vec![] } else { vec![state] };
            put("act", [numbers(&[row]), vec![Field::Words(state)]].concat());
        }
        for bytes in [1, 2, 5] {
            put("write", numbers(&[row, bytes]));
        }
        // the text of the next row into this one
        let next =
            unpacked(n, set).get((row + 1) % m.max(1)).map_or(String::new(), |next| texts::written(&next.paulis));
        put("read", [numbers(&[row]), vec![Field::Text(next.clone().into())]].concat());
        put("readx", [numbers(&[row]), vec![Field::TextBytes(next.into())]].concat());
    }
}

/// All pairs of one row and of two rows of one qubit with all phases, and all pairs of two rows of two qubits, whose
/// phases go round.
fn pairs(sink: Sink) {
    for (n, m) in [(0, 0), (0, 1), (1, 1), (2, 1), (1, 2)] {
        let mut all = vec![];
        sets(n, m, &mut |set| all.push(set.clone()));
        for left in &all {
            all.iter().for_each(|right| sink(pair(n, left, right)));
        }
    }
    let mut bare = vec![];
    sets(2, 2, &mut |set| {
        if set.p == [0] {
            bare.push(set.clone());
        }
    });
    let signed = |set: &Set, code: usize| Set { p: vec![code as u64 & 15], ..set.clone() };
    for (i, left) in bare.iter().enumerate() {
        for (j, right) in bare.iter().enumerate() {
            let code = 7 * i + 11 * j;
            sink(pair(2, &signed(left, code), &signed(right, code >> 4)));
        }
    }
}

pub fn pair(n: usize, left: &Set, right: &Set) -> String {
    call_on("pair", n, left, [further(right), vec![lengths_of(left)]].concat()).line()
}

/// Lists of the numbers below n of at most `most` items, with or without repeats.
fn lists(n: u16, most: usize, repeats: bool) -> Vec<Vec<u16>> {
    let mut all = vec![vec![]];
    let mut last = all.clone();
    for _ in 0..most {
        let grow = |list: &Vec<u16>| -> Vec<Vec<u16>> {
            let fits = |item: &u16| repeats || !list.contains(item);
            (0..n).filter(fits).map(|item| [list.clone(), vec![item]].concat()).collect()
        };
        last = last.iter().flat_map(grow).collect();
        all.extend(last.clone());
    }
    all
}

/// Reductions of one qubit by every short order and all lists, and of two qubits by every permutation of the columns.
fn reductions(sink: Sink) {
    let shorts = |lists: [&Vec<u16>; 3]| lists.map(|list| Field::Shorts(list.clone())).to_vec();
    for m in 0..=2u16 {
        sets(1, m as usize, &mut |set| {
            for order in &lists(2, 2, true) {
                for listed in &lists(m, 2, false) {
                    for extra in &lists(m, 1, true) {
                        let more = [shorts([order, listed, extra]), numbers(&[20])].concat();
                        sink(call_on("reduce", 1, set, more).line());
                    }
                }
            }
        });
    }
    let orders: Vec<Vec<u16>> = lists(4, 4, false).into_iter().filter(|order| order.len() == 4).collect();
    sets(2, 2, &mut |set| {
        if set.p != [0] {
            return;
        }
        for order in &orders {
            for listed in [vec![0, 1], vec![1, 0]] {
                let more = [shorts([order, &listed, &vec![]]), numbers(&[20])].concat();
                sink(call_on("reduce", 2, set, more).line());
            }
        }
    });
}

/// Elements of one qubit: up to two terms of every kind between all states.
fn elements(sink: Sink) {
    let parts = [(1, 0), (0, 1), (-2, 3)];
    let mut terms: Vec<Vec<(u64, u64, usize)>> = vec![vec![]];
    let kinds: Vec<(u64, u64, usize)> = (0..12).map(|i| (i / 6, i / 3 % 2, i as usize % 3)).collect();
    for a in &kinds {
        terms.push(vec![*a]);
        kinds.iter().filter(|b| b.0 >= a.0).for_each(|b| terms.push(vec![*a, *b]));
    }
    for terms in &terms {
        for code in 0..4u64 {
            let words = |f: fn(&(u64, u64, usize)) -> u64| Field::Words(terms.iter().map(f).collect());
            let re: Vec<i32> = terms.iter().map(|t| parts[t.2].0).collect();
            let im: Vec<i32> = terms.iter().map(|t| parts[t.2].1).collect();
            let bits = |list: &[i32]| Field::Words(list.iter().map(|v| (*v as f64).to_bits()).collect());
            let head = vec![Field::Number(1), words(|t| t.0), words(|t| t.1)];
            let tail = vec![Field::Word(code & 1), Field::Word(code >> 1)];
            let floats = vec![bits(&re), bits(&im)];
            let ints = vec![Field::Ints(re), Field::Ints(im)];
            sink(Case::new("elemf", [head.clone(), floats, tail.clone()].concat()).line());
            sink(Case::new("elemi", [head, ints, tail].concat()).line());
        }
    }
}

/// Every gate on every row of up to three qubits, and on random rows with qubits named at the edges of words.
fn gates_on_rows(sink: Sink) {
    for n in 0..=3 {
        sets(n, 1, &mut |set| {
            for gate in gates::every(n as u64 + 1) {
                sink(call_on("gate", n, set, vec![Field::Gate(gate)]).line());
            }
        });
    }
    let mut random = Random::of(13, 0);
    for n in [63, 64, 65, 127, 128, 129, QUBITS - 1, QUBITS] {
        for m in 0..=3 {
            for _ in 0..12 {
                let rows = rows(&mut random, n, m);
                sink(over_rows(&mut random, "gate", n, rows).line());
            }
        }
    }
}

// ---- refusals, alone and in pairs

/// Sound calls of a few sizes to be spoiled.
fn bases(call: &str, random: &mut Random) -> Vec<Case> {
    if matches!(call, "elemf" | "elemi") {
        return [(1, 2), (3, 5), (63, 6), (64, 4)].map(|(n, count)| of_terms(random, call, n, count)).to_vec();
    }
    if call == "elems" {
        let sizes = [(1, 2, 1, 1), (3, 5, 2, 3), (63, 6, 3, 2), (64, 4, 2, 2)];
        return sizes.map(|(n, count, bras, kets)| states::of_sizes(random, n, count, bras, kets)).to_vec();
    }
    let sizes = [
        (1, 1),
        (3, 2),
        (64, 2),
        (65, 3),
        (130, 2),
        (QUBITS - 1, 2),
        (5, 0),
        (0, 2),
        (2, 31),
        (1, 32),
        (3, 33),
        (0, 32),
    ];
    sizes
        .map(|(n, m)| {
            let rows = rows(random, n, m);
            over_rows(random, call, n, rows)
        })
        .to_vec()
}

pub fn refusals(sink: Sink) {
    for (at, (call, _)) in CALLS.iter().enumerate() {
        let mut random = Random::of(8, at as u64);
        for base in bases(call, &mut random) {
            singles_and_pairs(&base, &mut random, sink);
        }
    }
    large_terms(sink);
}

pub fn singles_and_pairs(base: &Case, random: &mut Random, sink: Sink) {
    let all = faults::of_call(base.call);
    for (i, first) in all.iter().enumerate() {
        let mut spoiled = base.clone();
        if !(first.1)(&mut spoiled, random) {
            continue;
        }
        sink(spoiled.line());
        // Each pair in both orders, since the first change may leave no room for the second.
        for (j, second) in all.iter().enumerate() {
            let mut twice = spoiled.clone();
            if i != j && (second.1)(&mut twice, random) {
                sink(twice.line());
            }
        }
    }
}

/// As many terms as are allowed, one more, and one more with each other fault.
fn large_terms(sink: Sink) {
    for call in ["elemf", "elemi"] {
        let mut random = Random::of(9, call.len() as u64);
        for count in [65535, 65536] {
            sink(plain_terms(call, count).line());
        }
        let many = plain_terms(call, 65537);
        sink(many.line());
        for (_, fault) in faults::of_call(call) {
            let mut spoiled = many.clone();
            if fault(&mut spoiled, &mut random) {
                sink(spoiled.line());
            }
        }
    }
}

/// Terms with short tokens: X is 0 for the first half and 1 from there on.
pub fn plain_terms(call: &str, count: usize) -> Case {
    let x = (0..count).map(|i| (2 * i >= count) as u64).collect();
    let z = (0..count).map(|i| (i % 3 == 0) as u64).collect();
    let (re, im) = match call {
        "elemf" => (Field::Words(vec![0x10; count]), Field::Words(vec![0; count])),
        _ => (Field::Ints(vec![-7; count]), Field::Ints(vec![2; count])),
    };
    let fields = vec![Field::Number(1), Field::Words(x), Field::Words(z), re, im, Field::Word(0), Field::Word(1)];
    Case::new(call, fields)
}

/// A sound call with one to three faults, each refusal number as likely as another.
pub fn spoiled(random: &mut Random) -> Case {
    let call = random.pick(&CALLS).0;
    let mut case = of_call(random, call);
    let all = faults::of_call(call);
    let mut numbers: Vec<u8> = all.iter().map(|fault| fault.0).collect();
    numbers.sort();
    numbers.dedup();
    if !all.is_empty() {
        for _ in 0..random.pick(&[1, 1, 1, 2, 2, 3]) {
            let number = random.pick(&numbers);
            let fitting: Vec<_> = all.iter().filter(|fault| fault.0 == number).collect();
            let fault = random.pick(&fitting).1;
            fault(&mut case, random);
        }
    }
    case
}
