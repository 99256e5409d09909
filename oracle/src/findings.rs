//! The evidence for docs/DIFFERENCES.md: each finding is run on its smallest input and held against what the document
//! says of the Rust.

use std::panic::{catch_unwind, UnwindSafe};

use num_complex::Complex64;
use oracle::cmpnt::springs::ModeSettings;
use oracle::container::bit_matrix::{AsBitMatrix, AsRowRef, BitMatrix};
use oracle::container::coeffs::complex_sign::{ComplexSign, ComplexSignVec};
use oracle::container::coeffs::sign::{Sign, SignVec};
use oracle::container::coeffs::traits::{ComplexSigned, FieldElemVec, NumRepr};
use oracle::container::quicksort::{LexicographicSort, QuickSort};
use oracle::container::traits::{Elements, MutRefElements, NewWithLen, RefElements};
use oracle::container::two_bit_vec::TwoBitVec;
use oracle::qubit::mode::{Qubits, SymplecticPart};
use oracle::qubit::pauli::cmpnt_major::cmpnt_list::CmpntList;
use oracle::qubit::pauli::cmpnt_major::mat_elem::sort_and_map_pauli_op;
use oracle::qubit::pauli::cmpnt_major::terms::{AsViewMut, Terms};
use oracle::qubit::pauli::springs::Springs;
use oracle::qubit::traits::{PauliWordMutRef, QubitsRelabel};

use oracle::answers::answer;
use oracle::fields::{log_text, phases_text, rows, rows_text, set_text};

use SymplecticPart::{X, Z};

type Set = Terms<ComplexSign>;

/// A finding's number in docs/DIFFERENCES.md, what the Rust is said to give there, and what it gives.
type Finding = (&'static str, &'static str, fn() -> String);

const FINDINGS: [Finding; 27] = [
    ("R1", "1,2", matrix_of_x_and_z),
    ("R2", "error; log lost; 1,0 0,1 c", bad_column_after_work),
    ("R2", "error; log lost; 1,0 0,1 c", bad_listed_row_after_work),
    ("R3", "ok -; 0 1 0", bad_extra_row_never_reached),
    ("R4", "ok 1:0,1:0; 1,1 1,0 0", listed_row_twice),
    ("R5", "by label 0: ok -; by label 1: ok 1:0", label_for_bit),
    ("R5", "error", label_beyond_bits),
    ("R6", "rows 1,0 0,1; signs +1 +1", sign_coefficients),
    ("R7", "6, equal to 2: false", product_not_reduced),
    ("R7", "1+0i", product_taken_for_one),
    ("R7", "panic", product_overflows),
    ("R8", "0 1", carry_to_neighbour),
    ("R8", "panic", carry_out_of_word),
    ("R9", "panic", element_of_no_qubits),
    ("R9", "panic", element_of_65_qubits),
    ("R9", "ok 7ff0000000000000 0000000000000000", element_too_large),
    ("R10", "ok 3ff0000000000000 0000000000000000", not_finite_outside_of_block),
    ("R10", "ok 1 0", falling_x),
    ("R11", "Z words 0,1; coefficients 2 1", sorting_reorders_block),
    ("R12", "panic", row_too_large),
    ("R13", "bare: 0; terms: ok - - 1 0", bare_pairs),
    ("R14", "ok 1:0; 1,0 0,1 c", column_twice),
    ("R15", "ok 3 0 0", gate_past_the_last_qubit),
    ("S1", "(+1)^1 = -1, (-1)^2 = -1; i^-1 = +i", powers),
    ("S2", "Y: true, I: false; highest bit of 2: None", redundant_and_highest),
    ("S3", "0 of 2 terms; imaginary part found: false", sorted_copy_and_hermitian),
    ("S4", "1 0", empty_spring_leaves_word),
];

/// Prints all findings and stops with an error if one does not show.
pub fn print() {
    let mut failed = false;
    for (number, said, run) in FINDINGS {
        let found = run();
        let verdict = if found == said { "confirmed" } else { "NOT CONFIRMED" };
        failed |= found != said;
        println!("{number}: {verdict}: {found}");
    }
    std::process::exit(failed as i32);
}

fn set(n: usize, x: &[u64], z: &[u64]) -> Set {
    Terms::from((rows(n, x.len(), x, z), ComplexSignVec::new_with_len(x.len())))
}

fn or_panic(run: impl FnOnce() -> String + UnwindSafe) -> String {
    catch_unwind(run).unwrap_or("panic".to_string())
}

fn line(text: &'static str) -> String {
    or_panic(|| answer(text).unwrap_or("-".to_string()))
}

/// The comment says 1 for rows that anticommute.
fn matrix_of_x_and_z() -> String {
    let out = rows(1, 2, &[1, 0], &[0, 1]).compatibility_matrix();
    format!("{:x},{:x}", out[0][0], out[1][0])
}

fn reduced(mut set: Set, order: &[(usize, SymplecticPart)], listed: &[usize], extra: &[usize]) -> String {
    match set.canonicalize(&order.to_vec(), &listed.to_vec(), &extra.to_vec()) {
        Ok(log) => format!("ok {}; {}", log_text(&log), set_text(&set)),
        Err(_) => format!("error; log lost; {}", set_text(&set)),
    }
}

/// Rows X and Y of one qubit: the first column is worked off, then qubit 1 is found to be too large.
fn bad_column_after_work() -> String {
    reduced(set(1, &[1, 1], &[0, 1]), &[(0, X), (1, X)], &[0, 1], &[])
}

fn bad_listed_row_after_work() -> String {
    reduced(set(1, &[1, 1], &[0, 1]), &[(0, X)], &[0, 1, 2], &[])
}

fn bad_extra_row_never_reached() -> String {
    reduced(set(1, &[0], &[1]), &[(0, X)], &[0], &[9])
}

/// Rows Y and X, Y listed twice: it is the pivot of both columns, and the second undoes what the first cleared.
fn listed_row_twice() -> String {
    reduced(set(1, &[1, 1], &[1, 0]), &[(0, X), (0, Z)], &[0, 0, 1], &[])
}

/// A row of one qubit, a controlled-X onto the next.
fn gate_past_the_last_qubit() -> String {
    answer("gate 1 1 1 0 0 cx 0 1").unwrap_or_else(|| "none".to_string())
}

/// Rows X and Y, column X twice: the second mention finds no row.
fn column_twice() -> String {
    reduced(set(1, &[1, 1], &[0, 1]), &[(0, X), (0, X)], &[0, 1], &[])
}

/// Two rows with X at place 0, whose label is 1.
fn labelled(label: usize) -> String {
    let mut set = set(2, &[1, 1], &[0, 0]);
    set.word_iters.relabel(Qubits::from_inds(vec![1, 0]).unwrap()).unwrap();
    reduced(set, &[(label, X)], &[0, 1], &[]).split(';').next().unwrap().to_string()
}

fn label_for_bit() -> String {
    format!("by label 0: {}; by label 1: {}", labelled(0), labelled(1))
}

fn label_beyond_bits() -> String {
    let mut set = set(1, &[1], &[0]);
    set.word_iters.relabel(Qubits::from_offset(5, 1)).unwrap();
    reduced(set, &[(0, X)], &[0], &[]).split(';').next().unwrap().to_string()
}

/// Y times X is -i Z.
fn sign_coefficients() -> String {
    let words = rows(1, 2, &[1, 1], &[0, 1]);
    let mut set: Terms<Sign> = Terms::from((words, SignVec::from_phases(&[false, false])));
    set.canonicalize(&vec![(0, X)], &vec![0, 1], &vec![]).unwrap();
    let signs: Vec<String> = set.coeffs.iter().map(|sign| sign.to_string()).collect();
    format!("rows {}; signs {}", rows_text(&set.word_iters), signs.join(" "))
}

fn product_not_reduced() -> String {
    let product = ComplexSign(3) * ComplexSign(3);
    format!("{}, equal to 2: {}", product.0, product == ComplexSign(2))
}

/// 1 times (-i)(-i) = -1.
fn product_taken_for_one() -> String {
    let mut one = Complex64::new(1.0, 0.0);
    one.imul_complex_sign(ComplexSign(3) * ComplexSign(3));
    one.to_string()
}

fn product_overflows() -> String {
    or_panic(|| (0..86).fold(ComplexSign(0), |product, _| product * ComplexSign(3)).to_string())
}

fn pairs(items: &[u8]) -> TwoBitVec {
    let mut out = TwoBitVec::default();
    items.iter().for_each(|item| out.push(*item));
    out
}

fn carry_to_neighbour() -> String {
    pairs(&[2, 0]).add_elemwise(&pairs(&[2, 0])).to_string()
}

fn carry_out_of_word() -> String {
    or_panic(|| pairs(&[2; 32]).add_elemwise(&pairs(&[2; 32])).to_string())
}

fn element_of_no_qubits() -> String {
    line("elemf 0 - - - - 0 0")
}

fn element_of_65_qubits() -> String {
    or_panic(|| {
        let bras = oracle::qubit::state::cmpnt::BasisState::new(Qubits::from_count(65));
        let op = Terms::<Complex64>::from((rows(65, 0, &[], &[]), vec![]));
        oracle::qubit::pauli::cmpnt_major::mat_elem::mat_elem_cmpnts_from_presorted(
            &op,
            &Default::default(),
            &bras.borrow(),
            &bras.borrow(),
        )
        .to_string()
    })
}

fn element_too_large() -> String {
    line("elemf 1 0,0 0,0 7fefffffffffffff,7fefffffffffffff 0,0 0 0")
}

fn not_finite_outside_of_block() -> String {
    line("elemf 1 0,1 0,0 3ff0000000000000,7ff0000000000000 0,0 0 0")
}

/// The block of X = 0 is 1 and 4; the Rust stops where its run ends.
fn falling_x() -> String {
    line("elemi 1 0,1,0 0,0,0 1,2,4 0,0,0 0 0")
}

fn sorting_reorders_block() -> String {
    let coeffs = [1.0, 2.0].map(|re| Complex64::new(re, 0.0)).to_vec();
    let mut op = Terms::<Complex64>::from((rows(1, 2, &[0, 0], &[1, 0]), coeffs));
    sort_and_map_pauli_op(&mut op);
    let z = op.word_iters.z_part();
    format!("Z words {:x},{:x}; coefficients {} {}", z[0][0], z[1][0], op.coeffs[0].re, op.coeffs[1].re)
}

fn row_too_large() -> String {
    line("imul 1 1 1 0 0 0 1")
}

/// No qubits, one row of phase i times one of phase 1: the components have no phases, the terms have.
fn bare_pairs() -> String {
    let bare = rows(0, 1, &[], &[]).cmpnts_mul_pairwise(&rows(0, 1, &[], &[])).unwrap().1;
    format!("bare: {}; terms: {}", phases_text(&bare), line("pair 0 1 - - 1 - - 0 0,0,1,1"))
}

fn powers() -> String {
    format!("(+1)^1 = {}, (-1)^2 = {}; i^-1 = {}", Sign(false).pow(1), Sign(true).squared(), ComplexSign(1).pow(-1))
}

/// A qubit is said to be redundant where all rows hold the identity.
fn redundant_and_highest() -> String {
    let redundant = |x: u64| rows(1, 1, &[x], &[x]).qubit_redundant(0).unwrap();
    let mut bits = BitMatrix::new(2);
    bits.push_vec(vec![false, true]).unwrap();
    let highest = bits.get_elem_ref(0).highest_set_bit();
    format!("Y: {}, I: {}; highest bit of 2: {highest:?}", redundant(1), redundant(0))
}

fn sorted_copy_and_hermitian() -> String {
    let coeffs = vec![Complex64::new(1.0, 0.0), Complex64::new(0.0, 1.0)];
    let op = Terms::<Complex64>::from((rows(1, 2, &[0, 1], &[0, 0]), coeffs.clone()));
    let sorted =
        QuickSort::<CmpntList, Complex64>::sorted_list_with_coeffs(&LexicographicSort { ascending: true }, &op);
    let found = coeffs.imag_part_is_significant(0.0);
    format!("{} of {} terms; imaginary part found: {found}", sorted.len(), op.len())
}

/// The word X overwritten by an empty string.
fn empty_spring_leaves_word() -> String {
    let mut springs = Springs::default();
    springs.append_empty(1);
    let mut word = rows(1, 1, &[1], &[0]);
    word.get_elem_mut_ref(0).set_spring(&springs, 0).unwrap();
    rows_text(&word)
}
