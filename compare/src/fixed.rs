//! The fixed list: some thousands of lines with their answers, the Rust's where it has one and the model's elsewhere.

use crate::compare::{agrees_with_rust, asked, rust_answers, Said};
use crate::limits::{QUBITS, ROWS, TERMS, WORDS_IN_REACH};
use crate::line::{is_case, joined, Case, Field, CALLS};
use crate::model;
use crate::random::Random;
use crate::rows::{packed, Pauli, Row, Set};
use crate::small::{over_sets, plain_terms, singles_and_pairs};
use crate::{engines, forms, late, malformed, phases, states, texts, undoing, valid};

/// Writes the list and its answers; the number of cases where Rust and model differ, and of the Rust's faults.
pub fn write(oracle: Option<Vec<String>>, cases: &str, answers: &str) -> usize {
    let lines = list();
    let asked_for: Vec<&str> = lines.iter().map(String::as_str).filter(|line| is_case(line)).collect();
    let model: Vec<String> = asked_for.iter().map(|line| model::answer(line)).collect();
    let places: Vec<usize> =
        (0..model.len()).filter(|i| oracle.is_some() && rust_answers(asked_for[*i], &model[*i])).collect();
    let chosen: Vec<&str> = places.iter().map(|i| asked_for[*i]).collect();
    let rust = oracle.map_or(Said { answers: vec![], faults: 0 }, |program| asked(&program, &chosen));
    let mut out = model.clone();
    let mut differing = 0;
    for (i, rust) in places.iter().zip(rust.answers) {
        if !agrees_with_rust(&model[*i], &rust) {
            println!("differs: {}\n  model: {}\n  Rust:  {rust}", asked_for[*i], model[*i]);
            differing += 1;
        } else if !rust.starts_with("replay ") && model[*i] != "refuse 12" {
            out[*i] = rust;
        }
    }
    std::fs::write(cases, lines.join("\n") + "\n").expect("the file of cases");
    std::fs::write(answers, out.join("\n") + "\n").expect("the file of answers");
    println!("{} cases, {} of them compared with the Rust, {differing} differ", out.len(), places.len());
    differing + rust.faults
}

/// All lines, comments included.
fn list() -> Vec<String> {
    let mut out = vec![];
    numbers_at_each_end(&mut out);
    limits(&mut out);
    edges(&mut out);
    reductions(&mut out);
    checks(&mut out);
    elements(&mut out);
    all_small(&mut out);
    refusals(&mut out);
    not_of_the_form(&mut out);
    random(&mut out);
    last_ones(&mut out);
    clashes(&mut out);
    whole_numbers(&mut out);
    signed_pairs(&mut out);
    engines(&mut out);
    walked_back(&mut out);
    gates(&mut out);
    files(&mut out);
    many_vectors(&mut out);
    texts(&mut out);
    phases(&mut out);
    edges_of_the_form(&mut out);
    tabled(&mut out);
    out
}

fn group(out: &mut Vec<String>, title: &str, lines: &[&str]) {
    out.push(format!("# {title}"));
    out.extend(lines.iter().map(|line| line.to_string()));
}

fn numbers_at_each_end(out: &mut Vec<String>) {
    group(
        out,
        "P1 to P3: XY, YX, ZX",
        &[
            "phase 1 2 1,1 0,1 0 0 1",
            "imul 1 2 1,1 0,1 0 0 1",
            "imul 1 2 1,1 1,0 0 0 1",
            "imul 1 2 0,1 1,0 0 0 1",
            "phase1 1 0 1 1",
            "phase1 1 1 1 0",
            "phase1 0 1 1 0",
        ],
    );
    group(out, "P4, P5: Y and Z on 1", &["act 1 1 1 1 0 0 1", "act 1 1 0 1 0 0 1", "act1 1 1 1", "act1 0 1 1"]);
    group(out, "P6: the identity counted", &["count 65 1 0,0 0,0 0 0", "count 64 1 0 0 0 0", "count 0 1 - - 0 0"]);
    group(
        out,
        "P7: XX against ZZ, XI against ZZ",
        &["comm 2 2 3,0 0,3 0 0 1", "comm 2 2 1,0 0,3 0 0 1", "matrix 2 3 3,0,1 0,3,0 0 3"],
    );
    group(out, "P8: a row squared", &["imul 1 1 1 0 3 0 0"]);
    out.push("# P9, P10: lengths of the log from none to more than needed".to_string());
    for units in [0, 1, 2, 3, 11, 12, 13, 14, 15, 16, 17, 100] {
        out.push(format!("reduce 2 3 0,3,1 1,0,1 0 0,1,2,3 0,1,2 - {units}"));
        out.push(format!("reduceall 2 3 0,3,1 1,0,1 0 {units}"));
    }
    group(
        out,
        "P11, P12",
        &[
            "elemi 2 0,1,1,2 1,1,0,0 3,2,5,7 0,0,0,0 0 1",
            "elemi 2 0,1,1,2 1,1,0,0 3,2,5,7 0,0,0,0 1 1",
            "elemi 2 0,1,1,2 1,1,0,0 3,2,5,7 0,0,0,0 3 0",
            "elemf 2 0,1,1,2 1,1,0,0 4008000000000000,4000000000000000,4014000000000000,401c000000000000 0,0,0,0 0 1",
            "elemf 2 0,1,1,2 1,1,0,0 4008000000000000,4000000000000000,4014000000000000,401c000000000000 0,0,0,0 1 1",
            "elemf 2 0,1,1,2 1,1,0,0 4008000000000000,4000000000000000,4014000000000000,401c000000000000 0,0,0,0 3 0",
            "elemi 1 0 1 -2147483648 0 1 1",
        ],
    );
}

/// Rows that share no letter: row r holds X at qubit r, Z at the next, and the phase r mod 4.
fn ladder(n: usize, m: usize) -> Set {
    let row = |r: usize| {
        let mut paulis = vec![Pauli::I; n];
        if n > 0 {
            paulis[(r + 1) % n] = Pauli::Z;
            paulis[r % n] = Pauli::X;
        }
        Row { paulis, phase: (r % 4) as u8 }
    };
    packed(n, &(0..m).map(row).collect::<Vec<_>>())
}

fn with_numbers(call: &str, n: usize, set: &Set, numbers: &[usize]) -> String {
    let more = numbers.iter().map(|v| Field::Number(*v as u64)).collect();
    valid::call_on(call, n, set, more).line()
}

fn limits(out: &mut Vec<String>) {
    out.push("# 4,096 qubits and 4,097; qubit n; bit n set; 4,096 rows and 4,097".to_string());
    for n in [QUBITS - 1, QUBITS, QUBITS + 1] {
        let set = ladder(n, 1);
        out.push(with_numbers("count", n, &set, &[0]));
        for q in [0, 1, 63, 64, QUBITS - 2, QUBITS - 1, QUBITS, QUBITS + 1] {
            out.push(with_numbers("get", n, &set, &[0, q]));
        }
    }
    let mut high = ladder(QUBITS - 1, 1);
    *high.x.last_mut().expect("a word") |= 1 << 63;
    out.push(with_numbers("count", QUBITS - 1, &high, &[0]));
    for m in [512, ROWS - 1, ROWS, ROWS + 1] {
        let set = ladder(1, m);
        for call in ["count", "central"] {
            out.push(with_numbers(call, 1, &set, &[m - 1]));
        }
        out.push(with_numbers("imul", 1, &set, &[m - 1, 0]));
        out.push(with_numbers("matrix", 1, &set, &[(m * m.div_ceil(64)).min(WORDS_IN_REACH)]));
        out.push(with_numbers("reduceall", 1, &set, &[2 * m]));
    }
    // the longest rows of which a line has many, and the most rows, of as many qubits as a line has
    let widest = ladder(QUBITS, 64);
    out.push(with_numbers("central", QUBITS, &widest, &[63]));
    out.push(with_numbers("reduceall", QUBITS, &widest, &[2000]));
    let longest = ladder(64, ROWS);
    out.push(with_numbers("central", 64, &longest, &[ROWS - 1]));
    out.push(with_numbers("reduceall", 64, &longest, &[2000]));
}

/// Every call over rows at the edges of words.
fn edges(out: &mut Vec<String>) {
    out.push("# every call at n = 0, 1, 63, 64, 65, 4,096 and 4,097".to_string());
    let mut random = Random::of(1, 0);
    for n in [0, 1, 63, 64, 65, QUBITS, QUBITS + 1] {
        let rows = valid::rows(&mut random, n, 3);
        for (call, kinds) in CALLS.iter().filter(|call| call.1.starts_with("nnWWP")) {
            let few = kinds.contains('S') && n > 100;
            let rows = if few { rows[..1].to_vec() } else { rows.clone() };
            let cases = if n > 100 { 1 } else { 3 };
            for _ in 0..cases {
                out.push(valid::over_rows(&mut random, call, n, rows.clone()).line());
            }
        }
    }
    out.push("# qubit n, row m".to_string());
    for n in [0, 1, 63, 64, 65] {
        let set = ladder(n, 2);
        out.push(with_numbers("get", n, &set, &[0, n]));
        out.push(with_numbers("get", n, &set, &[2, 0]));
        out.push(with_numbers("phase", n, &set, &[1, 2]));
        out.push(with_numbers("imul", n, &set, &[2, 1]));
    }
}

fn reductions(out: &mut Vec<String>) {
    group(
        out,
        "repeated columns: 15 against 1 to 8; X and Z of one qubit are two columns",
        &[
            "reduce 2 3 0,3,1 1,0,1 0 0,0,1,1,2,3,0,1,2,3 0,1,2 - 100",
            "reduce 1 2 1,1 0,1 0 0,0,0 0,1 - 100",
            "reduce 2 3 3,3,3 0,1,2 39 1,1 2,0,1 - 100",
            "reduce 2 3 0,3,1 1,0,1 0 0,2,1,3 0,1,2 - 100",
            "reduce 4097 0 - - - 0,0 - - 0",
            "reduce 2 3 0,3 1,0,1 0 0,0 0,1,2 - 100",
            "reduce 2 3 4,3,1 1,0,1 0 0,0 0,1,2 - 100",
            "reduce 2 3 0,3,1 1,0,1 40 0,0 0,1,2 - 100",
            "reduce 2 3 0,3,1 1,0,1 0 4,4 0,1,2 - 100",
            "reduce 2 3 0,3,1 1,0,1 0 0,0,4 0,1,2 - 100",
            "reduce 2 3 0,3,1 1,0,1 0 0,0 0,3,2 - 100",
            "reduce 2 3 0,3,1 1,0,1 0 0,0 0,1,2 3 100",
            "reduce 2 3 0,3,1 1,0,1 0 0,0 2,2 - 100",
            "reduce 2 3 0,3,1 1,0,1 0 0,0,1,2,3 0,1,2 - 12",
            "reduce 2 3 0,3,1 1,0,1 0 0,1,2,3,3 0,1,2 - 0",
            "reduce 0 3 - - 39 0,0 2,0,1 - 0",
        ],
    );
    out.push("# a column named once more, at every place".to_string());
    for column in 0..4u16 {
        for place in 0..=4 {
            let mut order = vec![0, 1, 2, 3];
            order.insert(place, column);
            out.push(format!("reduce 2 3 0,3,1 1,0,1 0 {} 0,1,2 - 100", crate::line::joined(&order)));
        }
    }
    group(
        out,
        "listed rows among the extra ones, extra rows repeated",
        &[
            "reduce 2 3 0,3,1 1,0,1 0 0,1,2,3 0,1 0,1,2 100",
            "reduce 2 3 0,3,1 1,0,1 0 0,1,2,3 0,1 2,2,2 100",
            "reduce 2 3 1,1,1 0,0,3 0 0,2 1 1,1,0,2,0,2 100",
            "reduce 2 3 1,1,1 0,0,3 0 0,2 - 0,1,2 100",
            "reduce 1 2 1,1 0,1 4 0,1 1 1,0,1,0 100",
        ],
    );
    group(
        out,
        "empty order, empty lists, no rows, no qubits",
        &[
            "reduce 2 3 0,3,1 1,0,1 0 - 0,1,2 - 100",
            "reduce 2 3 0,3,1 1,0,1 0 0,1,2,3 - - 100",
            "reduce 2 3 0,3,1 1,0,1 0 - - - 0",
            "reduce 2 0 - - - 0,1,2,3 - - 0",
            "reduce 0 3 - - 39 - 2,0,1 0,0 0",
            "reduce 0 3 - - 39 0 2,0,1 - 0",
            "reduceall 0 3 - - 39 0",
            "reduceall 0 0 - - - 0",
            "reduceall 2 0 - - - 5",
            "reduceall 2 2 0,0 0,0 9 0",
        ],
    );
    group(
        out,
        "numbers too large, a listed row repeated",
        &[
            "reduce 2 3 0,3,1 1,0,1 0 0,4 0,1,2 - 100",
            "reduce 2 3 0,3,1 1,0,1 0 0,1 0,3,2 - 100",
            "reduce 2 3 0,3,1 1,0,1 0 0,1 0,1,2 3 100",
            "reduce 2 3 0,3,1 1,0,1 0 0,65535 0,1,2 - 100",
            "reduce 2 3 0,3,1 1,0,1 0 0,1 0,1,0 - 100",
            "reduce 2 3 0,3,1 1,0,1 0 0,1 2,2 - 0",
            "reduce 2 3 0,3,1 1,0,1 0 - 2,2 - 0",
        ],
    );
}

const START: &str = "2 3 0,3,1 1,0,1 0 0,1,2,3 0,1,2 -";
const LOG: [u16; 14] = [0, 1, 1, 0, 2, 0, 1, 2, 0, 1, 2, 1, 1, 2];
const CLAIM: &str = "1,2,0 0,0,1 d";

fn check_of(log: &[u16], claim: &str) -> String {
    format!("check {START} {} {claim}", crate::line::joined(log))
}

fn checks(out: &mut Vec<String>) {
    out.push("# P9's log and rows: accepted".to_string());
    out.push(check_of(&LOG, CLAIM));
    out.push("# each unit of the log changed to each row and to numbers of m and more".to_string());
    for at in 0..LOG.len() {
        for to in [0, 1, 2, 3, 65535] {
            let mut log = LOG;
            log[at] = to;
            out.push(check_of(&log, CLAIM));
        }
    }
    out.push("# an entry dropped, entries exchanged, the log cut, odd".to_string());
    for at in 0..7 {
        out.push(check_of(&[&LOG[..2 * at], &LOG[2 * at + 2..]].concat(), CLAIM));
        out.push(check_of(&LOG[..2 * at], CLAIM));
        out.push(check_of(&LOG[..2 * at + 1], CLAIM));
        if at < 6 {
            let mut log = LOG;
            log[2 * at..2 * at + 4].rotate_left(2);
            out.push(check_of(&log, CLAIM));
        }
    }
    group(
        out,
        "a bit or a phase of the claim changed",
        &[
            &check_of(&LOG, "0,2,0 0,0,1 d"),
            &check_of(&LOG, "1,2,0 0,1,1 d"),
            &check_of(&LOG, "1,2,0 0,0,0 d"),
            &check_of(&LOG, "1,2,0 0,0,1 c"),
            &check_of(&LOG, "1,2,0 0,0,1 5"),
            &check_of(&LOG, "1,2,0 0,0,1 1d"),
            &check_of(&LOG, "1,2,0 0,0,1 4d"),
            &check_of(&LOG, "1,2,4 0,0,1 d"),
            &check_of(&LOG, "1,2 0,0 d"),
        ],
    );
    group(
        out,
        "not reduced; rows outside of both lists; a pivot row among the extra ones",
        &[
            "check 2 3 0,3,1 1,0,1 0 0,1,2,3 0,1,2 - - 0,3,1 1,0,1 0",
            "check 1 2 1,1 0,0 0 0 0 1 - 1,1 0,0 0",
            "check 1 2 1,1 0,0 0 0 0 - - 1,1 0,0 0",
            "check 1 2 1,1 0,0 0 0 0 0 - 1,1 0,0 0",
            "check 1 2 1,1 0,0 c 0 0 1 1,0 1,0 0,0 c",
            "check 1 2 1,1 0,0 c 0 0 1 0,1 1,0 0,0 c",
            "check 1 2 1,1 0,0 c 0 0,1 - 1,0 1,0 0,0 c",
            "check 1 2 1,0 0,1 c 0,1 1,0 - - 1,0 0,1 c",
            "check 1 2 1,0 0,1 c 1,0 1,0 - - 1,0 0,1 c",
            "check 1 2 1,0 0,1 c 0,0,1 0,1 - - 1,0 0,1 c",
            "check 1 2 1,0 0,1 c 1,1,0 0,1 - - 1,0 0,1 c",
            "check 2 3 1,1,1 0,0,3 0 0,2 1 1,1,0,2,0,2 0,1,2,1 0,1,0 0,0,3 0",
        ],
    );
    group(
        out,
        "no qubits, no rows, empty lists",
        &[
            "check 0 2 - - 9 - 0,1 - 0,1 - - b",
            "check 0 2 - - 9 - 0,1 - 0,1 - - 9",
            "check 0 0 - - - - - - - - - -",
            "check 2 0 - - - 0,1 - - - - - -",
            "check 2 1 1 1 0 - - - - 1 1 0",
            "check 2 1 1 1 0 - - - 0,0 1 1 0",
            "check 2 1 1 1 0 - 0,0 - 0 1 1 0",
            "check 2 1 1 1 0 4 0 - 0 1 1 0",
        ],
    );
    group(
        out,
        "a column twice: 15 against 3 and 5 of the claim, 6, 7, 9 and a bad entry",
        &[
            "check 1 2 1,0 0,1 0 0,0 0,1 - 0 1,0 0,1 0",
            "check 1 2 1,0 0,1 0 0,1,0 0,1 - - 1,0 0,1 0",
            "check 1 2 1,0 0,1 0 1,1 0,1 - 0,0 1,0 0,1 0",
            "check 1 2 1,0 0,1 0 0,0 0,1 - 0 1 0 0",
            "check 1 2 1,0 0,1 0 0,0 0,1 - 0 1,0 0,1 10",
            "check 1 2 1,0 0,1 0 2,2 0,1 - 0 1,0 0,1 0",
            "check 1 2 1,0 0,1 0 0,0 0,2 - 0 1,0 0,1 0",
            "check 1 2 1,0 0,1 0 0,0 0,0 - 0 1,0 0,1 0",
            "check 1 2 1,0 0,1 0 0,1 0,1 - 0 1,0 0,1 0",
        ],
    );
}

/// Elements of one qubit in a block of identities with these bits as real parts.
fn block_of(bits: &[u64]) -> String {
    let zeros = vec![0; bits.len()];
    let fields = [&zeros, &zeros, bits, &zeros].map(|list: &[u64]| Field::Words(list.to_vec()));
    let fields = [vec![Field::Number(1)], fields.to_vec(), vec![Field::Word(0), Field::Word(0)]].concat();
    Case::new("elemf", fields).line()
}

fn elements(out: &mut Vec<String>) {
    out.push(
        "# floats: zeros of both signs, subnormals, the largest once and twice, cancelling sums, order".to_string(),
    );
    let (minus_zero, largest, least) = (1u64 << 63, f64::MAX.to_bits(), 1u64);
    let floats = |list: &[f64]| list.iter().map(|v| v.to_bits()).collect::<Vec<_>>();
    let blocks: Vec<Vec<u64>> = vec![
        vec![minus_zero],
        vec![minus_zero, minus_zero],
        vec![least, minus_zero | least],
        vec![least, least, 0x000f_ffff_ffff_ffff],
        vec![largest],
        vec![largest, largest],
        vec![minus_zero | largest, minus_zero | largest],
        vec![largest, minus_zero | largest],
        vec![largest, minus_zero | largest, largest],
        vec![largest, largest, minus_zero | largest],
        floats(&[1e16, 1.0, -1e16]),
        floats(&[1e16, -1e16, 1.0]),
        floats(&[0.1, 0.2, 0.3]),
        floats(&[0.3, 0.2, 0.1]),
        vec![0x7ff8_0000_0000_0000],
        vec![0x7ff0_0000_0000_0000],
        vec![0xfff0_0000_0000_0000, 0],
    ];
    out.extend(blocks.iter().map(|bits| block_of(bits)));
    group(
        out,
        "not finite outside of the block; the imaginary part too large; both exponents of Y",
        &[
            "elemf 1 0,1 0,0 0,7ff8000000000001 0,0 0 0",
            "elemf 1 0,1 0,0 7ff0000000000000,0 0,0 0 1",
            "elemf 1 0,1 0,0 0,0 0,fff0000000000000 0 0",
            "elemf 1 0,0 0,0 0,0 7fefffffffffffff,7fefffffffffffff 0 0",
            "elemf 1 1,1 1,1 7fefffffffffffff,7fefffffffffffff 0,0 1 0",
            "elemf 1 1,1 1,1 7fefffffffffffff,7fefffffffffffff 0,0 0 1",
            "elemf 1 1 1 3ff0000000000000 4000000000000000 1 0",
            "elemf 1 1 1 3ff0000000000000 4000000000000000 0 1",
            "elemf 1 0 1 3ff0000000000000 4000000000000000 1 1",
            "elemf 1 0 1 0 8000000000000000 1 1",
        ],
    );
    group(
        out,
        "no terms, no block, one block that is all terms, blocks at both ends",
        &[
            "elemf 1 - - - - 0 0",
            "elemi 64 - - - - 0 ffffffffffffffff",
            "elemi 2 1,2 0,0 4,5 6,7 0 0",
            "elemi 2 0,3 0,0 4,5 6,7 1 0",
            "elemi 2 1,2 0,0 4,5 6,7 3 0",
            "elemi 2 2,2,2 0,1,2 1,1,1 0,0,0 0 2",
            "elemi 2 0,0,1,2,3,3 0,3,1,2,0,3 1,2,3,4,5,6 0,0,0,0,0,0 1 1",
            "elemi 2 0,0,1,2,3,3 0,3,1,2,0,3 1,2,3,4,5,6 0,0,0,0,0,0 1 2",
            "elemi 2 0,0,1,2,3,3 0,3,1,2,0,3 1,2,3,4,5,6 0,0,0,0,0,0 1 0",
            "elemi 2 0,0,1,2,3,3 0,3,1,2,0,3 1,2,3,4,5,6 0,0,0,0,0,0 3 1",
        ],
    );
    group(
        out,
        "n = 0, 1, 63, 64, 65; a bit of n and above; X falls; the ends of i32",
        &[
            "elemi 0 - - - - 0 0",
            "elemi 65 - - - - 0 0",
            "elemf 0 - - - - 0 0",
            "elemf 65 0 0 0 0 0 0",
            "elemi 64 ffffffffffffffff ffffffffffffffff 1 2 0 ffffffffffffffff",
            "elemi 64 ffffffffffffffff ffffffffffffffff 1 2 ffffffffffffffff 0",
            "elemi 63 7fffffffffffffff 7fffffffffffffff 1 2 0 7fffffffffffffff",
            "elemi 63 8000000000000000 0 1 2 0 0",
            "elemi 63 0 8000000000000000 1 2 0 0",
            "elemi 63 0 0 1 2 8000000000000000 0",
            "elemi 63 0 0 1 2 0 8000000000000000",
            "elemi 1 2 0 1 2 0 0",
            "elemi 2 1,0 0,0 1,1 1,1 0 0",
            "elemi 2 0,1,0 0,0,0 1,1,1 1,1,1 2 0",
            "elemf 2 3,2 0,0 7ff8000000000000,0 0,0 0 0",
            "elemi 1 0,0 0,1 2147483647,-2147483648 -2147483648,2147483647 1 1",
            "elemi 1 1,1 1,1 -2147483648,-2147483648 -2147483648,-2147483648 1 0",
            "elemi 1 1,1 1,1 -2147483648,-2147483648 -2147483648,-2147483648 0 1",
        ],
    );
    out.push("# 65,536 terms and 65,537".to_string());
    out.push(plain_terms("elemi", TERMS).line());
    out.push(format!("elemf 1 {} - - - 0 1", joined(&vec![0; TERMS + 1])));
}

fn all_small(out: &mut Vec<String>) {
    out.push("# every call on every set of one row of one qubit".to_string());
    over_sets(1, 1, &mut |line| out.push(line));
    over_sets(0, 1, &mut |line| out.push(line));
}

fn refusals(out: &mut Vec<String>) {
    let mut random = Random::of(2, 0);
    for (call, _) in CALLS.iter().filter(|call| call.1.starts_with('n')) {
        out.push(format!("# {call}: each fault alone and with each other"));
        let base = match *call {
            "elemf" | "elemi" => valid::of_terms(&mut random, call, 3, 4),
            "elems" => states::of_sizes(&mut random, 3, 4, 2, 3),
            _ => {
                let rows = valid::rows(&mut random, 3, 2);
                valid::over_rows(&mut random, call, 3, rows)
            }
        };
        let mut long = 0;
        singles_and_pairs(&base, &mut random, &mut |line| {
            // A few of those with more rows or qubits than the limit are enough.
            long += (line.len() > 500) as usize;
            if line.len() <= 500 || long % 16 == 1 {
                out.push(line);
            }
        });
    }
}

fn not_of_the_form(out: &mut Vec<String>) {
    out.push("# lines not of the form, and some that only look so; a blank line".to_string());
    out.push(String::new());
    for i in 0..400 {
        out.push(malformed::line(&mut Random::of(3, i)));
    }
}

fn edges_of_the_form(out: &mut Vec<String>) {
    let what = "digits, ends of each kind of number, lists and lengths as long as a line has them";
    out.push(format!("# the edges of the form: {what}"));
    // no carriage returns
    forms::few(&mut |line| out.extend(Some(line).filter(|line| printable(line))));
}

fn tabled(out: &mut Vec<String>) {
    out.push("# reductions by the table, from 64 rows and 64 columns on; logs of half of the entries, of all but one, of all".to_string());
    late::few(&mut |line| out.push(line));
}

fn random(out: &mut Vec<String>) {
    out.push("# random calls".to_string());
    for (at, (call, _)) in CALLS.iter().enumerate() {
        let mut made = 0;
        for i in 0.. {
            let line = valid::of_call(&mut Random::of(4 + at as u64, i), call).line();
            if line.len() <= 700 {
                out.push(line);
                made += 1;
            }
            if made == 90 {
                break;
            }
        }
    }
}

/// What only the last qubit, row or column of the limits decides, and a few more that no line above does: each shows a
/// mutation of compare/mutations.txt.
fn last_ones(out: &mut Vec<String>) {
    out.push(
        "# decided by the last qubit, the last row, row number 4,096 in a log, a coefficient without a block"
            .to_string(),
    );
    let row = |letter: Pauli| Row { paulis: [vec![Pauli::I; QUBITS - 1], vec![letter]].concat(), phase: 0 };
    let set = |letters: &[Pauli]| packed(QUBITS, &letters.iter().map(|letter| row(*letter)).collect::<Vec<_>>());
    for call in ["comm", "phase"] {
        out.push(with_numbers(call, QUBITS, &set(&[Pauli::X, Pauli::Z]), &[0, 1]));
    }
    out.push(with_numbers("reduceall", QUBITS, &set(&[Pauli::Z, Pauli::Z]), &[4]));
    for letter in [Pauli::X, Pauli::Z] {
        let more = [vec![Field::Shorts(vec![]); 4], valid::further(&set(&[letter]))].concat();
        out.push(valid::call_on("check", QUBITS, &set(&[Pauli::I]), more).line());
    }
    for (call, m, number) in [("central", ROWS, 0), ("matrix", 512, 4096)] {
        let mut rows = vec![Row { paulis: vec![Pauli::X], phase: 0 }; m];
        rows[m - 1].paulis[0] = Pauli::Z;
        out.push(with_numbers(call, 1, &packed(1, &rows), &[number]));
    }
    // the last row listed once, and twice
    for listed in [vec![0, ROWS as u16 - 1], vec![ROWS as u16 - 1, 0, ROWS as u16 - 1]] {
        let more = vec![Field::Shorts(vec![0, 1]), Field::Shorts(listed), Field::Shorts(vec![]), Field::Number(8)];
        out.push(valid::call_on("reduce", 1, &ladder(1, ROWS), more).line());
    }
    for at in [0, 1] {
        let mut log = LOG;
        log[at] = ROWS as u16;
        out.push(check_of(&log, CLAIM));
    }
    out.push("elemf 1 0,0 0,0 7ff8000000000000,0 0,0 0 1".to_string());
}

/// Pairwise products of rows with phases: the two of RULES 11.7, and for four pairs of letters all sixteen pairs of phases.
fn signed_pairs(out: &mut Vec<String>) {
    group(out, "pairs with phases", &["pair 1 1 1 0 3 1 1 2 1,1,1,1", "pair 0 1 - - 1 - - 0 0,0,1,1"]);
    let rows = |letter: Pauli, phase: fn(u8) -> u8| -> Set {
        packed(1, &(0..16).map(|code| Row { paulis: vec![letter], phase: phase(code) }).collect::<Vec<_>>())
    };
    for (l, r) in [(Pauli::I, Pauli::I), (Pauli::X, Pauli::Y), (Pauli::Y, Pauli::X), (Pauli::Z, Pauli::Z)] {
        let right = rows(r, |code| code % 4);
        let more = [valid::further(&right), vec![valid::lengths_of(&right)]].concat();
        out.push(valid::call_on("pair", 1, &rows(l, |code| code / 4), more).line());
    }
}

/// How many qubits clash: none, one, all; of a row by itself; and lent numbers that are not m.
fn clashes(out: &mut Vec<String>) {
    group(
        out,
        "clashes: of two rows in either order, of a row by itself; numbers of another length alone",
        &[
            "imul 4 2 f,a c,6 0 0 1",
            "imul 4 2 f,a c,6 0 1 0",
            "imul 2 2 3,1 3,2 9 0 0",
            "pair 2 3 3,1,0 3,2,1 0 3,0,1 3,2,0 0 3,3,1,3",
            "pair 1 1 1 0 0 0 1 0 1,1,1,1",
            "pair 1 1 1 0 0 0 1 0 1,1,1,0",
            "pair 1 1 1 0 0 0 1 0 1,1,1,2",
            "pair 1 1 1 0 0 0 1 0 1,1,1,4097",
            "pair 0 0 - - - - - - 0,0,0,0",
            "pair 0 0 - - - - - - 0,0,0,1",
            "pair 1 1 1 0 0 0 1 0 1,1,1",
            "pair 1 1 1 0 0 0 1 0 1,1,1,1,1",
        ],
    );
    let all = |letter: Pauli| Row { paulis: vec![letter; QUBITS], phase: 0 };
    let rows = packed(QUBITS, &[all(Pauli::X), all(Pauli::Z), all(Pauli::Y)]);
    for (a, b) in [(0, 1), (1, 2), (2, 0), (2, 2)] {
        out.push(with_numbers("imul", QUBITS, &rows, &[a, b]));
    }
    let right = packed(QUBITS, &[all(Pauli::Y), all(Pauli::Z), all(Pauli::I)]);
    let more = [valid::further(&right), vec![valid::lengths_of(&right)]].concat();
    out.push(valid::call_on("pair", QUBITS, &rows, more).line());
}

/// The example of docs/ENERGIES.md, sums of whole numbers at and past the bound, and the order of terms.
fn whole_numbers(out: &mut Vec<String>) {
    group(
        out,
        "whole numbers in both editions",
        &[
            "elemi 2 0,0,0,0,3 0,1,2,3,0 -3,2,2,1,4 0,0,0,0,0 1 1",
            "elemf 2 0,0,0,0,3 0,1,2,3,0 c008000000000000,4000000000000000,4000000000000000,3ff0000000000000,4010000000000000 \
             0,0,0,0,0 1 1",
            "elemi 2 0,0,0,0,3 0,1,2,3,0 -3,2,2,1,4 0,0,0,0,0 0 3",
            "elemf 2 0,0,0,0,3 0,1,2,3,0 c008000000000000,4000000000000000,4000000000000000,3ff0000000000000,4010000000000000 \
             0,0,0,0,0 0 3",
            "elemi 2 0,0,0,0,3 0,1,2,3,0 -3,2,2,1,4 0,0,0,0,0 0 1",
            "elemf 2 0,0,0,0,3 0,1,2,3,0 c008000000000000,4000000000000000,4000000000000000,3ff0000000000000,4010000000000000 \
             0,0,0,0,0 0 1",
        ],
    );
    out.push("# absolute values that add up to 2 to the 53, and to one and two more; the order of terms".to_string());
    let bound = model::EXACT as f64;
    let blocks = [
        vec![bound - 1.0, 1.0],
        vec![bound, 1.0],
        vec![1.0, bound],
        vec![bound, 1.0, 1.0],
        vec![1.0, 1.0, bound],
        vec![1.0, 1e16, -1e16],
        vec![-1e16, 1e16, 1.0],
    ];
    out.extend(blocks.iter().map(|block| block_of(&block.iter().map(|part| part.to_bits()).collect::<Vec<_>>())));
}

/// Phases by look-ups, each behind the counted one: rows that differ in the last qubits, and random ones.
fn engines(out: &mut Vec<String>) {
    out.push("# phases by look-ups, at n = 0, 1, 2, 3, 63, 64, 65, 4,095 and 4,096".to_string());
    for n in [1, 2, 3, 63, 64, 65] {
        engines::last_qubits(n, &mut |line| out.push(line));
    }
    let mut random = Random::of(5, 0);
    for n in engines::QUBITS_OF_ROWS {
        let set = packed(n, &valid::rows(&mut random, n, 2));
        let pairs = [(0, 1), (1, 0), (0, 0), (0, 2)];
        for (a, b) in pairs.into_iter().take(if n > 100 { 1 } else { 4 }) {
            out.push(with_numbers("phase", n, &set, &[a, b]));
            out.push(with_numbers("phaset", n, &set, &[a, b]));
        }
    }
}

/// P9's and P10's rows walked back to their start, from there again, and damaged logs; random ones.
fn walked_back(out: &mut Vec<String>) {
    let rows = |rows: &str, log: &[u16]| format!("undo 2 3 {rows} 0,1,2 - {}", joined(log));
    group(
        out,
        "walking back P9 and P10; from the starting rows; an empty log; no rows, no qubits",
        &[
            &rows(CLAIM, &LOG),
            &rows("1,2,0 0,1,1 d", &LOG[..12]),
            &rows("0,3,1 1,0,1 0", &LOG),
            &rows(CLAIM, &[]),
            "undo 2 0 - - - - - -",
            "undo 0 3 - - 39 0,1 2 2,1,0,1",
            "undo 1 2 1,0 0,1 7 0 1 1,0",
            "undo 1 2 1,0 0,1 7 0 1,1 0,1",
            "undo 2 3 1,2,0 0,0,1 d 0,1,2 - 0:1,1:0,2:0,1:2,0:1,2:1,1:2",
        ],
    );
    out.push("# each unit of the log changed".to_string());
    for at in 0..LOG.len() {
        for to in [0, 1, 2, 3, 65535] {
            let mut log = LOG;
            log[at] = to;
            out.push(rows(CLAIM, &log));
        }
    }
    group(
        out,
        "an odd log; numbers too large; a listed row twice, with a log of odd length and with 4 and 5",
        &[
            &rows(CLAIM, &LOG[..13]),
            "undo 2 3 1,2,0 0,0,1 d 0,3 - 0,1",
            "undo 2 3 1,2,0 0,0,1 d 0,1 3 0,1",
            "undo 2 3 1,2,0 0,0,1 d 0,0 - 0",
            "undo 2 3 1,2,0 0,0,1 4d 0,0 - 0",
            "undo 2 3 1,2,4 0,0,1 d 0,0 - 0",
        ],
    );
    let mut random = Random::of(6, 0);
    for _ in 0..40 {
        let case = undoing::left_by_reduction(&mut random);
        if case.line().len() < 4000 {
            out.push(case.line());
        }
    }
}

fn many_vectors(out: &mut Vec<String>) {
    out.push(
        "# states of many basis vectors: what leaves i64 and its neighbours, orders, lists at the limit".to_string(),
    );
    states::at_each_end(&mut |line| out.push(line));
}

/// Hostile texts in both forms, and all of up to two bytes; a file of text has printable bytes.
fn texts(out: &mut Vec<String>) {
    out.push(
        "# texts of rows: all of up to two bytes of an alphabet, hostile ones, the longest, outputs around".to_string(),
    );
    for n in [0, 1, 2, 11] {
        texts::all_short(n, 2, &mut |line| out.push(line));
    }
    texts::at_each_end(&mut |line| out.extend(Some(line).filter(|line| printable(line))));
}

/// Those that a file has room for.
fn phases(out: &mut Vec<String>) {
    out.push(
        "# phases at the ends of words: m = 0, 1, 31 to 33, 63 to 65, 4,095 to 4,097; spare bits; carries".to_string(),
    );
    let mut long = 0;
    phases::all(&[1], &mut |line| {
        long += (line.len() > 600) as usize;
        if line.len() <= 600 || (line.len() < 6000 && long % 8 == 1) {
            out.push(line);
        }
    });
}

fn printable(line: &str) -> bool {
    line.bytes().all(|byte| matches!(byte, b' '..=b'~' | b'\t'))
}

/// The worked file of docs/PWL.md, runs that have no file, and files as long as are answered and longer.
fn files(out: &mut Vec<String>) {
    group(
        out,
        "log files: docs/PWL.md; a full log; no rows, no qubits; an extra row, phases; refused as reduce",
        &[
            "pwl 2 3 0,3,1 1,0,1 0 0,1,2,3 0,1,2 - 14",
            "pwl 2 3 0,3,1 1,0,1 0 0,1,2,3 0,1,2 - 100",
            "pwl 2 3 0,3,1 1,0,1 0 0,1,2,3 0,1,2 - 12",
            "pwl 2 3 0,3,1 1,0,1 0 0,1,2,3 0,1,2 - 0",
            "pwl 0 0 - - - - - - 0",
            "pwl 0 3 - - 39 - 2,0,1 0,0 0",
            "pwl 4096 0 - - - 8191,0 - - 1",
            "pwl 65 2 1,1,1,0 0,1,0,0 7 0,64,129 1 0,0 9",
            "pwl 1 2 1,1 0,0 0 0 0 0,1 1",
            "pwl 1 2 1,1 0,0 10 0 0 1 4",
            "pwl 1 2 1,1 0,0 0 2 0 1 4",
            "pwl 1 2 1,1 0,0 0 0 0,0 1 4",
            "pwl 1 2 1,1 0,0 0 0,0 0 1 4",
            "pwl 1 2 1,1 0,0 0 0 0 1",
            "pwl 1 2 1,1 0,0 0 0 0 1 4 4",
            "pwl 1 2 1,1 0,0 0 0 0 1 140001",
        ],
    );
    // the longest file that is answered, 16,383 bytes, and one of 16,385: 466 rows without an entry, one extra row and two
    let rows = packed(64, &vec![Row { paulis: vec![Pauli::I; 64], phase: 0 }; 466]);
    for extra in [1, 2] {
        let more = vec![
            Field::Shorts((0..128).collect()),
            Field::Shorts((0..466).collect()),
            Field::Shorts(vec![465; extra]),
            Field::Number(0),
        ];
        out.push(valid::call_on("pwl", 64, &rows, more).line());
    }
}

/// The example of docs/GATES.md, both ends, and every rule of each gate in one set.
fn gates(out: &mut Vec<String>) {
    group(
        out,
        "docs/GATES.md: gates, reduction, check, gates back, and the log from the start",
        &[
            "gate 2 3 0,3,1 1,0,1 0 h 0",
            "gate 2 3 1,2,1 0,1,1 20 cx 0 1",
            "gate 2 3 3,2,3 0,1,1 20 s 1",
            "matrix 2 3 3,2,3 2,3,3 20 3",
            "reduceall 2 3 3,2,3 2,3,3 20 8",
            "check 2 3 3,2,3 2,3,3 20 0,1,2,3 0,1,2 - 2,0,0,1,0,2,1,2 1,2,0 0,2,1 15",
            "gate 2 3 1,2,0 0,2,1 15 s 1",
            "gate 2 3 1,2,0 0,0,1 1d s 1",
            "gate 2 3 1,2,0 0,2,1 1d s 1",
            "gate 2 3 1,2,0 0,0,1 15 cx 0 1",
            "gate 2 3 3,2,0 0,0,1 15 h 0",
            "check 2 3 0,3,1 1,0,1 0 0,1,2,3 0,1,2 - 2,0,0,1,0,2,1,2 2,2,1 1,0,0 15",
        ],
    );
    group(
        out,
        "every Pauli, and every two",
        &[
            "gate 1 4 0,1,1,0 0,0,1,1 e4 h 0",
            "gate 1 4 0,1,1,0 0,0,1,1 e4 s 0",
            "gate 2 16 0,1,1,0,2,3,3,2,2,3,3,2,0,1,1,0 0,0,1,1,0,0,1,1,2,2,3,3,2,2,3,3 e4e4e4e4 cx 0 1",
            "gate 2 16 0,1,1,0,2,3,3,2,2,3,3,2,0,1,1,0 0,0,1,1,0,0,1,1,2,2,3,3,2,2,3,3 e4e4e4e4 cx 1 0",
        ],
    );
    group(
        out,
        "6, 21 and their order; no rows, no qubits",
        &[
            "gate 1 1 1 0 0 cx 0 1",
            "gate 1 1 1 0 0 cx 1 0",
            "gate 1 1 1 0 0 cx 1 1",
            "gate 1 1 1 0 0 cx 0 0",
            "gate 1 1 1 0 4 cx 0 0",
            "gate 1 0 - - - h 0",
            "gate 1 0 - - - h 1",
            "gate 2 0 - - - cx 1 1",
            "gate 0 1 - - 1 h 0",
            "gate 65 1 1,1 0,1 0 cx 64 63",
            "gate 65 1 0,1 8000000000000000,1 0 cx 64 63",
            "gate 1 1 1 0 0 x 0",
            "gate 1 1 1 0 0 cx 0",
            "gate 1 1 1 0 0 h 0 0",
        ],
    );
}
