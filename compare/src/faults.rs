//! What makes a call one to be refused. Each fault is one change to a call that has none, so that refusals can be
//! asked for alone and in pairs.

use crate::limits::{QUBITS, ROWS, VECTORS, WORDS_IN_REACH};
use crate::line::{Case, Field, M, MORE, SET};
use crate::model::set_at;
use crate::random::Random;
use crate::reduction::{reduce, Lists};
use crate::rows::{phase_words_for, unpacked, words_for, Set, PHASES};
use crate::texts;
use lines::gate::Gate;

/// A change, and whether it could be made.
pub type Fault = fn(&mut Case, &mut Random) -> bool;

/// All faults that make sense for a call, each with the number it alone gives. They stand by rank: of two, the one further
/// up gives the number.
pub fn of_call(call: &str) -> Vec<(u8, Fault)> {
    match call {
        "phase1" | "act1" => vec![],
        "elemf" => [TERMS, BRA_AND_KET, FLOATS].concat(),
        "elemi" => [TERMS, BRA_AND_KET].concat(),
        "elems" => [TERMS, STATES].concat(),
        "pair" | "check" => [SETS, SECOND, own(call)].concat(),
        _ => [SETS, own(call)].concat(),
    }
}

const SETS: &[(u8, Fault)] = &[
    (1, more_qubits),
    (1, many_qubits),
    (2, more_rows),
    (2, many_rows),
    (3, x_longer),
    (3, x_shorter),
    (3, z_longer),
    (3, z_shorter),
    (3, p_longer),
    (3, p_shorter),
    (3, one_row_more),
    (4, spare_x),
    (4, spare_z),
    (5, spare_next_to_last_row),
    (5, spare_last_bit),
];

const SECOND: &[(u8, Fault)] = &[
    (3, second_x_longer),
    (3, second_z_shorter),
    (3, second_p_longer),
    (3, second_p_shorter),
    (3, second_one_row_more),
    (4, second_spare_x),
    (4, second_spare_z),
    (5, second_spare_next_to_last_row),
    (5, second_spare_last_bit),
];

const TERMS: &[(u8, Fault)] = &[
    (1, no_qubits),
    (1, qubits_65),
    (1, many_qubits),
    (3, term_z_longer),
    (3, term_z_shorter),
    (3, re_longer),
    (3, re_shorter),
    (3, im_longer),
    (3, im_shorter),
    (4, spare_in_last_x),
    (4, spare_in_a_z),
    (10, x_falls),
    (10, x_falls_at_end),
];

const BRA_AND_KET: &[(u8, Fault)] = &[(4, spare_in_bra), (4, spare_in_ket)];

const STATES: &[(u8, Fault)] = &[
    (2, bras_above_limit),
    (2, kets_above_limit),
    (3, bra_re_longer),
    (3, bra_im_shorter),
    (3, ket_re_shorter),
    (3, ket_im_longer),
    (4, spare_in_bras),
    (4, spare_in_kets),
    (16, all_least),
];

const FLOATS: &[(u8, Fault)] = &[(11, not_finite_re), (11, not_finite_im), (12, sum_too_large)];

fn own(call: &str) -> &'static [(u8, Fault)] {
    match call {
        "get" | "set" => &[(6, row_too_large), (6, row_far_too_large), (6, second_number_too_large)],
        "count" | "central" => &[(6, row_too_large), (6, row_far_too_large)],
        "phase" | "phaset" | "comm" | "imul" => {
            &[(6, row_too_large), (6, row_far_too_large), (6, second_row_too_large)]
        }
        "act" => &[(3, state_longer), (3, state_shorter), (4, spare_in_state), (6, row_too_large)],
        "matrix" => &[(3, out_longer), (3, out_shorter)],
        "write" => &[(6, row_too_large), (6, row_far_too_large), (14, text_not_lent)],
        "read" | "readx" => {
            const TEXTS: &[(u8, Fault)] = &[
                (6, row_too_large),
                (6, row_far_too_large),
                (13, text_with_space_before),
                (13, text_with_space_behind),
                (13, text_of_qubit_n),
                (13, text_with_zero_before),
                (13, text_repeated),
                (13, text_of_i),
            ];
            TEXTS
        }
        "gate" => &[(6, qubit_of_n), (6, last_qubit_far_too_large), (21, one_qubit_twice)],
        "pair" => &[
            (3, third_one_row_more),
            (3, third_x_longer),
            (3, third_z_longer),
            (3, third_p_longer),
            (3, third_p_shorter),
            (3, numbers_longer),
            (3, numbers_shorter),
            (3, numbers_above_rows),
        ],
        "reduce" | "pwl" => {
            const REDUCE: &[(u8, Fault)] = &[
                (6, column_too_large),
                (6, listed_too_large),
                (6, extra_too_large),
                (7, listed_twice),
                (15, column_twice),
                (15, column_twice_at_ends),
                (8, log_short),
            ];
            REDUCE
        }
        "reduceall" => &[(8, log_short)],
        "undo" => &[(6, listed_too_large), (6, extra_too_large), (7, listed_twice), (9, odd_longer), (9, odd_shorter)],
        _ => &[
            (6, column_too_large),
            (6, listed_too_large),
            (6, extra_too_large),
            (7, listed_twice),
            (15, column_twice),
            (15, column_twice_at_ends),
            (9, odd_longer),
            (9, odd_shorter),
        ],
    }
}

// ---- access to fields

fn n_of(case: &Case) -> usize {
    case.number(0) as usize
}

fn words(case: &mut Case, i: usize) -> &mut Vec<u64> {
    match &mut case.fields[i] {
        Field::Words(v) => v,
        _ => unreachable!("field {i} of {}", case.call),
    }
}

fn m_of(case: &Case) -> usize {
    case.number(M) as usize
}

fn shorts(case: &mut Case, i: usize) -> &mut Vec<u16> {
    match &mut case.fields[i] {
        Field::Shorts(v) | Field::Pairs(v) => v,
        _ => unreachable!("field {i} of {}", case.call),
    }
}

fn set_number(case: &mut Case, i: usize, to: u64) -> bool {
    let changed = case.number(i) != to;
    case.fields[i] = match case.fields[i] {
        Field::Word(_) => Field::Word(to),
        _ => Field::Number(to),
    };
    changed
}

/// Where the call's second set starts.
fn second(case: &Case) -> usize {
    if case.call == "pair" {
        MORE
    } else {
        MORE + 4
    }
}

fn longer(list: &mut Vec<u64>) -> bool {
    list.push(0);
    true
}

fn shorter(list: &mut Vec<u64>) -> bool {
    list.pop().is_some()
}

fn ints(case: &mut Case, i: usize) -> &mut Vec<i32> {
    match &mut case.fields[i] {
        Field::Ints(v) => v,
        _ => unreachable!("field {i} of {}", case.call),
    }
}

// ---- states of many basis vectors

/// One word more than the limit, with parts to match.
fn above_limit(case: &mut Case, at: usize) -> bool {
    words(case, at).resize(VECTORS + 1, 0);
    ints(case, at + 1).resize(VECTORS + 1, 0);
    ints(case, at + 2).resize(VECTORS + 1, 0);
    true
}

fn bras_above_limit(case: &mut Case, _: &mut Random) -> bool {
    above_limit(case, 5)
}

fn kets_above_limit(case: &mut Case, _: &mut Random) -> bool {
    above_limit(case, 8)
}

fn bra_re_longer(case: &mut Case, _: &mut Random) -> bool {
    ints(case, 6).push(1);
    true
}

fn bra_im_shorter(case: &mut Case, _: &mut Random) -> bool {
    ints(case, 7).pop().is_some()
}

fn ket_re_shorter(case: &mut Case, _: &mut Random) -> bool {
    ints(case, 9).pop().is_some()
}

fn ket_im_longer(case: &mut Case, _: &mut Random) -> bool {
    ints(case, 10).push(1);
    true
}

fn spare_in_bras(case: &mut Case, random: &mut Random) -> bool {
    let n = n_of(case);
    n < 64 && spare_bit(words(case, 5), n, random)
}

fn spare_in_kets(case: &mut Case, random: &mut Random) -> bool {
    let n = n_of(case);
    n < 64 && spare_bit(words(case, 8), n, random)
}

/// The first pair's four parts are the least i32: its first real sum leaves i64.
fn all_least(case: &mut Case, _: &mut Random) -> bool {
    let lists = [6, 7, 9, 10];
    let there = lists.iter().all(|i| !case.ints(*i).is_empty()) && [5, 8].iter().all(|i| !case.words(*i).is_empty());
    if there {
        lists.iter().for_each(|i| ints(case, *i)[0] = i32::MIN);
    }
    there
}

// ---- 1

/// One qubit more than the limit, with words to match.
fn more_qubits(case: &mut Case, _: &mut Random) -> bool {
    let w = words_for(n_of(case));
    let fits = |case: &Case, i: usize| case.words(i).len() == m_of(case) * w;
    if n_of(case) > QUBITS || !few_rows(case) || !fits(case, SET) || !fits(case, SET + 1) {
        return false;
    }
    refit(case, SET, w);
    match case.call {
        "pair" => {
            refit(case, MORE, w);
            let m = m_of(case);
            let words = m * words_for(QUBITS + 1);
            case.fields[MORE + 3] = Field::Lengths([words, words, phase_words_for(m), m].map(|v| v as u64));
        }
        "check" => refit(case, MORE + 4, w),
        "act" => words(case, MORE + 1).resize(words_for(QUBITS + 1), 0),
        _ => {}
    }
    set_number(case, 0, QUBITS as u64 + 1)
}

/// Whether a line may have a row of so many qubits for each row.
fn few_rows(case: &Case) -> bool {
    m_of(case) <= WORDS_IN_REACH / words_for(QUBITS + 1)
}

fn refit(case: &mut Case, at: usize, w: usize) {
    for i in [at, at + 1] {
        let rows = m_of(case);
        let old = words(case, i).clone();
        let row = |r: usize| {
            let mut row: Vec<u64> = old.iter().skip(r * w).take(w).copied().collect();
            row.resize(words_for(QUBITS + 1), 0);
            row
        };
        *words(case, i) = (0..rows).flat_map(row).collect();
    }
}

fn many_qubits(case: &mut Case, random: &mut Random) -> bool {
    let n = random.pick(&[QUBITS as u64 + 1, QUBITS as u64 + 2, 8192, 65535, 65536, 1 << 32, u64::MAX]);
    set_number(case, 0, n)
}

fn no_qubits(case: &mut Case, _: &mut Random) -> bool {
    set_number(case, 0, 0)
}

fn qubits_65(case: &mut Case, _: &mut Random) -> bool {
    set_number(case, 0, 65)
}

// ---- 2

/// Words for one row more than the limit, as many as a line may have.
fn to_more_rows(case: &mut Case, at: usize) {
    let size = words_of_more_rows(case);
    words(case, at).resize(size, 0);
    words(case, at + 1).resize(size, 0);
    words(case, at + 2).resize(phase_words_for(ROWS + 1), 0);
}

fn words_of_more_rows(case: &Case) -> usize {
    ((ROWS + 1) * words_for(n_of(case).min(QUBITS))).min(WORDS_IN_REACH)
}

/// One row more than the limit, in every set, with lengths to match.
fn more_rows(case: &mut Case, _: &mut Random) -> bool {
    if matches!(case.call, "pair" | "check") {
        let at = second(case);
        to_more_rows(case, at);
    }
    if case.call == "pair" {
        let size = words_of_more_rows(case);
        case.fields[MORE + 3] = Field::Lengths([size, size, phase_words_for(ROWS + 1), ROWS + 1].map(|v| v as u64));
    }
    if case.call == "matrix" {
        set_number(case, MORE, WORDS_IN_REACH as u64);
    }
    to_more_rows(case, SET);
    set_number(case, M, ROWS as u64 + 1)
}

/// More rows than the limit whatever the lengths, which come after.
fn many_rows(case: &mut Case, random: &mut Random) -> bool {
    let m = random.pick(&[ROWS as u64 + 1, ROWS as u64 + 32, 8192, 65536, 1 << 32, 1 << 63, u64::MAX]);
    set_number(case, M, m)
}

// ---- 3

fn x_longer(case: &mut Case, _: &mut Random) -> bool {
    longer(words(case, SET))
}

fn x_shorter(case: &mut Case, _: &mut Random) -> bool {
    shorter(words(case, SET))
}

fn z_longer(case: &mut Case, _: &mut Random) -> bool {
    longer(words(case, SET + 1))
}

fn z_shorter(case: &mut Case, _: &mut Random) -> bool {
    shorter(words(case, SET + 1))
}

fn p_longer(case: &mut Case, _: &mut Random) -> bool {
    longer(words(case, SET + 2))
}

fn p_shorter(case: &mut Case, _: &mut Random) -> bool {
    shorter(words(case, SET + 2))
}

/// m one more than the words are for: seen by the X words, or by the phase words where the last one is full.
fn one_row_more(case: &mut Case, _: &mut Random) -> bool {
    let m = m_of(case);
    (n_of(case) > 0 || m % PHASES == 0) && set_number(case, M, (m as u64).saturating_add(1))
}

fn term_z_longer(case: &mut Case, _: &mut Random) -> bool {
    longer(words(case, 2))
}

fn term_z_shorter(case: &mut Case, _: &mut Random) -> bool {
    shorter(words(case, 2))
}

fn second_x_longer(case: &mut Case, _: &mut Random) -> bool {
    let at = second(case);
    longer(words(case, at))
}

fn second_z_shorter(case: &mut Case, _: &mut Random) -> bool {
    let at = second(case);
    shorter(words(case, at + 1))
}

fn second_p_longer(case: &mut Case, _: &mut Random) -> bool {
    let at = second(case);
    longer(words(case, at + 2))
}

fn second_p_shorter(case: &mut Case, _: &mut Random) -> bool {
    let at = second(case);
    shorter(words(case, at + 2))
}

/// Words for a row more than m.
fn second_one_row_more(case: &mut Case, _: &mut Random) -> bool {
    let (at, w) = (second(case), words_for(n_of(case).min(QUBITS)));
    let m = m_of(case);
    if m > ROWS || (w == 0 && m % PHASES != 0) {
        return false;
    }
    words(case, at + 2).resize(phase_words_for(m + 1), 0);
    for i in [at, at + 1] {
        let list = words(case, i);
        list.resize(list.len() + w, 0);
    }
    true
}

fn part_longer(case: &mut Case, i: usize) -> bool {
    match &mut case.fields[i] {
        Field::Words(v) => v.push(0),
        Field::Ints(v) => v.push(0),
        _ => unreachable!("field {i} of {}", case.call),
    }
    true
}

fn part_shorter(case: &mut Case, i: usize) -> bool {
    match &mut case.fields[i] {
        Field::Words(v) => v.pop().is_some(),
        Field::Ints(v) => v.pop().is_some(),
        _ => unreachable!("field {i} of {}", case.call),
    }
}

fn re_longer(case: &mut Case, _: &mut Random) -> bool {
    part_longer(case, 3)
}

fn re_shorter(case: &mut Case, _: &mut Random) -> bool {
    part_shorter(case, 3)
}

fn im_longer(case: &mut Case, _: &mut Random) -> bool {
    part_longer(case, 4)
}

fn im_shorter(case: &mut Case, _: &mut Random) -> bool {
    part_shorter(case, 4)
}

fn state_longer(case: &mut Case, _: &mut Random) -> bool {
    longer(words(case, MORE + 1))
}

fn state_shorter(case: &mut Case, _: &mut Random) -> bool {
    shorter(words(case, MORE + 1))
}

fn out_longer(case: &mut Case, _: &mut Random) -> bool {
    let to = case.number(MORE) + 1;
    set_number(case, MORE, to)
}

fn out_shorter(case: &mut Case, _: &mut Random) -> bool {
    let to = case.number(MORE).saturating_sub(1);
    set_number(case, MORE, to)
}

/// A third set for a row more than m.
fn third_one_row_more(case: &mut Case, _: &mut Random) -> bool {
    let (m, w) = (m_of(case), words_for(n_of(case).min(QUBITS)));
    let size = (m.min(ROWS) + 1) * w;
    let lengths = [size, size, phase_words_for(m.min(ROWS) + 1), m.min(ROWS) + 1].map(|v| v as u64);
    case.fields[MORE + 3] = Field::Lengths(lengths);
    size <= WORDS_IN_REACH
}

fn third(case: &mut Case, i: usize, by: i64) -> bool {
    let Field::Lengths(lengths) = &mut case.fields[MORE + 3] else { unreachable!("the lengths of pair") };
    let old = lengths[i];
    lengths[i] = old.saturating_add_signed(by);
    lengths[i] != old
}

fn third_x_longer(case: &mut Case, _: &mut Random) -> bool {
    third(case, 0, 1)
}

fn third_z_longer(case: &mut Case, _: &mut Random) -> bool {
    third(case, 1, 1)
}

fn third_p_longer(case: &mut Case, _: &mut Random) -> bool {
    third(case, 2, 1)
}

fn third_p_shorter(case: &mut Case, _: &mut Random) -> bool {
    third(case, 2, -1)
}

fn numbers_longer(case: &mut Case, _: &mut Random) -> bool {
    third(case, 3, 1)
}

fn numbers_shorter(case: &mut Case, _: &mut Random) -> bool {
    third(case, 3, -1)
}

/// More numbers than rows are allowed: the lent numbers are no rows, so it is 3 as well.
fn numbers_above_rows(case: &mut Case, _: &mut Random) -> bool {
    let Field::Lengths(lengths) = &mut case.fields[MORE + 3] else { unreachable!("the lengths of pair") };
    let old = lengths[3];
    lengths[3] = ROWS as u64 + 1;
    old != lengths[3]
}

// ---- 4

/// Sets a bit at n or above in the last word of a row of w words.
fn spare_bit(list: &mut [u64], n: usize, random: &mut Random) -> bool {
    let w = words_for(n);
    if n % 64 == 0 || w == 0 || list.len() < w {
        return false;
    }
    let row = random.below(list.len() / w);
    let q = if random.chance(600) { n % 64 } else { random.within(n % 64, 63) };
    list[row * w + w - 1] |= 1 << q;
    true
}

fn spare_x(case: &mut Case, random: &mut Random) -> bool {
    let n = n_of(case);
    spare_bit(words(case, SET), n, random)
}

fn spare_z(case: &mut Case, random: &mut Random) -> bool {
    let n = n_of(case);
    spare_bit(words(case, SET + 1), n, random)
}

fn second_spare_x(case: &mut Case, random: &mut Random) -> bool {
    let (n, at) = (n_of(case), second(case));
    spare_bit(words(case, at), n, random)
}

fn second_spare_z(case: &mut Case, random: &mut Random) -> bool {
    let (n, at) = (n_of(case), second(case));
    spare_bit(words(case, at + 1), n, random)
}

fn spare_in_state(case: &mut Case, random: &mut Random) -> bool {
    let n = n_of(case);
    spare_bit(words(case, MORE + 1), n, random)
}

/// In the last X, where it does not make the X words fall.
fn spare_in_last_x(case: &mut Case, _: &mut Random) -> bool {
    let n = n_of(case);
    match words(case, 1).last_mut() {
        Some(last) if n < 64 => {
            *last |= 1 << 63;
            true
        }
        _ => false,
    }
}

fn spare_in_a_z(case: &mut Case, random: &mut Random) -> bool {
    let n = n_of(case);
    n < 64 && spare_bit(words(case, 2), n, random)
}

fn spare_in_number(case: &mut Case, i: usize) -> bool {
    let n = n_of(case);
    n < 64 && set_number(case, i, case.number(i) | 1 << n)
}

fn spare_in_bra(case: &mut Case, _: &mut Random) -> bool {
    spare_in_number(case, 5)
}

fn spare_in_ket(case: &mut Case, _: &mut Random) -> bool {
    spare_in_number(case, 6)
}

// ---- 5

/// Sets a bit of the last phase word, where it has spare ones: there the first of them, or the last.
fn spare_phase(case: &mut Case, at: usize, last: bool) -> bool {
    let first = 2 * (m_of(case) % PHASES);
    let to = if last { 63 } else { first };
    match words(case, at + 2).last_mut() {
        Some(word) if first > 0 => {
            *word |= 1 << to;
            true
        }
        _ => false,
    }
}

fn spare_next_to_last_row(case: &mut Case, _: &mut Random) -> bool {
    spare_phase(case, SET, false)
}

fn spare_last_bit(case: &mut Case, _: &mut Random) -> bool {
    spare_phase(case, SET, true)
}

fn second_spare_next_to_last_row(case: &mut Case, _: &mut Random) -> bool {
    let at = second(case);
    spare_phase(case, at, false)
}

fn second_spare_last_bit(case: &mut Case, _: &mut Random) -> bool {
    let at = second(case);
    spare_phase(case, at, true)
}

// ---- 6 and 7

fn row_too_large(case: &mut Case, _: &mut Random) -> bool {
    let m = case.number(M);
    set_number(case, MORE, m)
}

fn row_far_too_large(case: &mut Case, _: &mut Random) -> bool {
    set_number(case, MORE, 65535)
}

fn second_row_too_large(case: &mut Case, _: &mut Random) -> bool {
    let m = case.number(M);
    set_number(case, MORE + 1, m)
}

fn second_number_too_large(case: &mut Case, _: &mut Random) -> bool {
    let n = case.number(0);
    set_number(case, MORE + 1, n.min(65535))
}

fn into_list(case: &mut Case, i: usize, item: usize, random: &mut Random) -> bool {
    let list = shorts(case, i);
    let at = random.below(list.len() + 1);
    list.insert(at, item.min(65535) as u16);
    true
}

fn column_too_large(case: &mut Case, random: &mut Random) -> bool {
    let n = n_of(case).min(30000);
    let by = random.pick(&[0, 0, 1, 64]);
    into_list(case, MORE, 2 * n + by, random)
}

/// The field of the listed rows; the extra rows are the next one. `undo` has no order before them.
fn listed_at(case: &Case) -> usize {
    if case.call == "undo" {
        MORE
    } else {
        MORE + 1
    }
}

fn log_of(case: &mut Case) -> &mut Vec<u16> {
    let at = listed_at(case) + 2;
    shorts(case, at)
}

fn listed_too_large(case: &mut Case, random: &mut Random) -> bool {
    let m = m_of(case);
    into_list(case, listed_at(case), m, random)
}

fn extra_too_large(case: &mut Case, random: &mut Random) -> bool {
    let m = m_of(case);
    into_list(case, listed_at(case) + 1, m, random)
}

fn listed_twice(case: &mut Case, random: &mut Random) -> bool {
    twice(case, listed_at(case), random)
}

fn column_twice(case: &mut Case, random: &mut Random) -> bool {
    twice(case, MORE, random)
}

/// An item of the list once more, at any place.
fn twice(case: &mut Case, i: usize, random: &mut Random) -> bool {
    if shorts(case, i).is_empty() {
        return false;
    }
    let list = shorts(case, i);
    let item = list[random.below(list.len())];
    into_list(case, i, item as usize, random)
}

/// The first column again, as the last.
fn column_twice_at_ends(case: &mut Case, _: &mut Random) -> bool {
    let order = shorts(case, MORE);
    let first = order.first().copied();
    order.extend(first);
    first.is_some()
}

// ---- 8 and 9, after 15

/// Whether a set's lengths fit.
fn fits(n: usize, set: &Set) -> bool {
    let words = |part: &Vec<u64>| part.len() == set.m * words_for(n);
    n <= QUBITS && set.m <= ROWS && words(&set.x) && words(&set.z) && set.p.len() == phase_words_for(set.m)
}

/// A log one entry too short, where the call is sound enough to know.
fn log_short(case: &mut Case, _: &mut Random) -> bool {
    let n = n_of(case);
    let set = set_at(case, SET);
    if !fits(n, &set) {
        return false;
    }
    let needed = needed(case, n, &set);
    let last = case.fields.len() - 1;
    needed > 0 && set_number(case, last, 2 * needed as u64 - 1)
}

fn needed(case: &Case, n: usize, set: &Set) -> usize {
    let (order, listed): (Vec<u16>, Vec<u16>) = ((0..2 * n as u16).collect(), (0..set.m as u16).collect());
    let lists = match case.call {
        "reduce" | "pwl" => {
            Lists { order: case.shorts(MORE), listed: case.shorts(MORE + 1), extra: case.shorts(MORE + 2) }
        }
        _ => Lists { order: &order, listed: &listed, extra: &[] },
    };
    let rows = |list: &[u16]| list.iter().all(|row| (*row as usize) < set.m);
    let columns = lists.order.iter().all(|column| (*column as usize) < 2 * n);
    if !columns || !rows(lists.listed) || !rows(lists.extra) {
        return 0;
    }
    reduce(&mut unpacked(n, set), lists, usize::MAX).log.len()
}

fn odd_longer(case: &mut Case, _: &mut Random) -> bool {
    let log = log_of(case);
    log.push(0);
    log.len() % 2 == 1
}

fn odd_shorter(case: &mut Case, _: &mut Random) -> bool {
    let log = log_of(case);
    log.pop().is_some() && log.len() % 2 == 1
}

// ---- 10 to 12

fn x_falls(case: &mut Case, random: &mut Random) -> bool {
    let x = words(case, 1);
    let steps: Vec<usize> = (1..x.len()).filter(|i| x[i - 1] < x[*i]).collect();
    if steps.is_empty() {
        return false;
    }
    let at = random.pick(&steps);
    x.swap(at - 1, at);
    true
}

fn x_falls_at_end(case: &mut Case, _: &mut Random) -> bool {
    let x = words(case, 1);
    let last = x.len().wrapping_sub(1);
    if x.len() < 2 || x[last - 1] == 0 {
        return false;
    }
    x[last] = 0;
    true
}

fn not_finite(case: &mut Case, i: usize, random: &mut Random) -> bool {
    let to = random.pick(&[
        f64::INFINITY.to_bits(),
        f64::NEG_INFINITY.to_bits(),
        0x7ff8_0000_0000_0000,
        0x7ff0_0000_0000_0001,
        0xffff_ffff_ffff_ffff,
    ]);
    let list = words(case, i);
    if list.is_empty() {
        return false;
    }
    let at = random.below(list.len());
    list[at] = to;
    true
}

fn not_finite_re(case: &mut Case, random: &mut Random) -> bool {
    not_finite(case, 3, random)
}

fn not_finite_im(case: &mut Case, random: &mut Random) -> bool {
    not_finite(case, 4, random)
}

/// The largest parts throughout, in a block of identities or of Z.
fn sum_too_large(case: &mut Case, random: &mut Random) -> bool {
    if case.words(1).len() < 2 {
        return false;
    }
    let i = random.pick(&[3, 4]);
    words(case, i).fill(f64::MAX.to_bits());
    words(case, 2).fill(0);
    let block = case.words(1)[0];
    set_number(case, 5, case.number(6) ^ block);
    true
}

// ---- gates

/// Qubit n; of a controlled-X the control.
fn qubit_of_n(case: &mut Case, _: &mut Random) -> bool {
    let n = case.number(0);
    let gate = match case.gate(MORE) {
        Gate::H(_) => Gate::H(n),
        Gate::S(_) => Gate::S(n),
        Gate::CX(_, t) => Gate::CX(n, t),
    };
    set_gate(case, gate)
}

/// Of a controlled-X the target.
fn last_qubit_far_too_large(case: &mut Case, random: &mut Random) -> bool {
    let q = random.pick(&[1 << 16, u64::MAX, 1 << 63]);
    let gate = match case.gate(MORE) {
        Gate::H(_) => Gate::H(q),
        Gate::S(_) => Gate::S(q),
        Gate::CX(c, _) => Gate::CX(c, q),
    };
    set_gate(case, gate)
}

/// On top of a qubit that is too large it is the same one twice, and still 6.
fn one_qubit_twice(case: &mut Case, _: &mut Random) -> bool {
    match case.gate(MORE) {
        Gate::H(q) | Gate::S(q) | Gate::CX(q, _) => set_gate(case, Gate::CX(q, q)),
    }
}

fn set_gate(case: &mut Case, gate: Gate) -> bool {
    let changed = case.gate(MORE) != gate;
    case.fields[MORE] = Field::Gate(gate);
    changed
}

// ---- texts

/// An output a byte shorter than the text.
fn text_not_lent(case: &mut Case, _: &mut Random) -> bool {
    let (n, row) = (n_of(case), case.number(MORE) as usize);
    let set = set_at(case, SET);
    let length =
        if fits(n, &set) { unpacked(n, &set).get(row).map_or(0, |row| texts::written(&row.paulis).len()) } else { 0 };
    length > 0 && set_number(case, MORE + 1, length as u64 - 1)
}

/// The text with something put at its front or at its end.
fn put_into_text(case: &mut Case, at_front: bool, bytes: &[u8]) -> bool {
    match &mut case.fields[MORE + 1] {
        Field::Text(text) | Field::TextBytes(text) => {
            *text = if at_front { [bytes, text].concat() } else { [text, bytes].concat() };
        }
        _ => unreachable!("the text of {}", case.call),
    }
    true
}

fn text_with_space_before(case: &mut Case, _: &mut Random) -> bool {
    put_into_text(case, true, b" ")
}

fn text_with_space_behind(case: &mut Case, _: &mut Random) -> bool {
    put_into_text(case, false, b" ")
}

/// One Pauli more, behind the others.
fn more_text(case: &mut Case, pauli: &str) -> bool {
    let space = if case.text(MORE + 1).is_empty() { "" } else { " " };
    put_into_text(case, false, format!("{space}{pauli}").as_bytes())
}

fn text_of_qubit_n(case: &mut Case, _: &mut Random) -> bool {
    let n = case.number(0);
    more_text(case, &format!("Z{n}"))
}

/// The last qubit, which is a number of n or above where there is none.
fn text_with_zero_before(case: &mut Case, _: &mut Random) -> bool {
    *case.fields.last_mut().expect("the text") = match case.call {
        "read" => Field::Text(vec![]),
        _ => Field::TextBytes(vec![]),
    };
    let last = case.number(0).saturating_sub(1);
    more_text(case, &format!("X0{last}"))
}

/// The last Pauli twice.
fn text_repeated(case: &mut Case, _: &mut Random) -> bool {
    let text = String::from_utf8_lossy(case.text(MORE + 1)).into_owned();
    match text.rsplit(' ').next() {
        Some(last) if !last.is_empty() => more_text(case, last),
        _ => false,
    }
}

fn text_of_i(case: &mut Case, _: &mut Random) -> bool {
    more_text(case, "I0")
}
