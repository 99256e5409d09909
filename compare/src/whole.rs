//! Whole numbers in both editions: the same terms as `elemi` and, right after it, as `elemf`; and floats whose absolute
//! values add up to just below, at and just above `model::EXACT`.

use crate::line::{Case, Field};
use crate::model::EXACT;
use crate::random::Random;
use crate::small::Sink;
use crate::valid;

/// Sums of absolute values around the bound.
const SIZES: [i64; 4] = [EXACT - 1, EXACT, EXACT + 1, EXACT + 2];

pub fn all(seed: u64, count: u64, sink: Sink) {
    edges(sink);
    largest(sink);
    for i in 0..count {
        let mut random = Random::of(seed ^ EXACT as u64, i);
        random_pair(&mut random, sink);
        sink(around(&mut random).line());
    }
}

/// A call of the whole-number edition, and right after it the same of the float edition.
fn pair(whole: &Case, sink: Sink) {
    let floats = |i: usize| Field::Words(bits(&whole.ints(i).iter().map(|part| *part as i64).collect::<Vec<_>>()));
    let parts = vec![floats(3), floats(4)];
    sink(whole.line());
    sink(Case::new("elemf", [whole.fields[..3].to_vec(), parts, whole.fields[5..].to_vec()].concat()).line());
}

/// As large as i32 parts can make a sum: 65,536 terms of the least i32.
fn largest(sink: Sink) {
    let words = Field::Words(vec![0; 65536]);
    let ints = Field::Ints(vec![i32::MIN; 65536]);
    let fields = vec![Field::Number(1), words.clone(), words, ints.clone(), ints, Field::Word(0), Field::Word(0)];
    pair(&Case::new("elemi", fields), sink);
}

fn bits(parts: &[i64]) -> Vec<u64> {
    parts.iter().map(|part| (*part as f64).to_bits()).collect()
}

/// Whether the part is an f64.
fn is_float(part: i64) -> bool {
    part as f64 as i128 == part as i128
}

/// Two terms of one qubit that turn by each exponent, real or imaginary, with every sign and several splits of each size.
pub fn edges(sink: Sink) {
    for size in SIZES {
        let splits = [[size - 1, 1], [1, size - 1], [size - 2, 2], [size / 2, size - size / 2], [size, 0], [0, size]];
        for split in splits.into_iter().filter(|split| split.iter().all(|part| is_float(*part))) {
            for signs in [[1, 1], [1, -1], [-1, 1], [-1, -1]] {
                let parts = [split[0] * signs[0], split[1] * signs[1]];
                for (x, z, bra, ket) in [(0, 0, 0, 0), (1, 1, 1, 0), (0, 1, 1, 1), (1, 1, 0, 1)] {
                    let head = vec![Field::Number(1), Field::Words(vec![x; 2]), Field::Words(vec![z; 2])];
                    let tail = vec![Field::Word(bra), Field::Word(ket)];
                    let (parts, nothing) = (Field::Words(bits(&parts)), Field::Words(vec![0; 2]));
                    for coefficients in [vec![parts.clone(), nothing.clone()], vec![nothing.clone(), parts.clone()]] {
                        sink(Case::new("elemf", [head.clone(), coefficients, tail.clone()].concat()).line());
                    }
                }
            }
        }
    }
}

/// A random pair. One in ten may be refused for its n.
fn random_pair(random: &mut Random, sink: Sink) {
    let mut whole = valid::of_call(random, "elemi");
    if random.chance(100) {
        whole.fields[0] = Field::Number(random.pick(&[0, 1, 65]));
    }
    pair(&whole, sink);
}

/// A random float call whose block's parts are whole numbers, most beyond i32, with absolute values around the bound. Half
/// of them add up in one direction: no Z word turns a term, the parts are real and of one sign.
fn around(random: &mut Random) -> Case {
    let count = random.within(1, 12);
    let mut case = valid::of_terms(random, "elemf", 3, count);
    let block: Vec<usize> = (0..count).filter(|i| case.words(1)[*i] == case.number(5) ^ case.number(6)).collect();
    let size = random.pick(&SIZES);
    let straight = random.chance(500);
    let parts = split(random, size, if straight { block.len() } else { 2 * block.len() });
    let minus = if straight { random.pick(&[0, 1000]) } else { 500 };
    let parts: Vec<i64> = parts.iter().map(|part| if random.chance(minus) { -part } else { *part }).collect();
    let place = |at: usize| if straight { (3, at) } else { (3 + at % 2, at / 2) };
    if straight {
        case.fields[2] = Field::Words(vec![0; count]);
        case.fields[4] = Field::Words(vec![0; count]);
    }
    for (at, part) in parts.iter().enumerate() {
        let (field, term) = place(at);
        let Field::Words(list) = &mut case.fields[field] else { unreachable!("parts are words") };
        list[block[term]] = (*part as f64).to_bits();
    }
    case
}

/// So many numbers from 0 up to the bound, so that each is an f64; two and more of them add up to the size. Often one is
/// nearly all of it and the others are small.
fn split(random: &mut Random, size: i64, count: usize) -> Vec<i64> {
    let mut out = vec![0; count];
    if count == 0 {
        return out;
    }
    let mut left = size;
    for _ in 0..count {
        let at = random.below(count);
        let most = if random.chance(500) { 4 } else { left / 2 + 1 };
        let more = random.below(most as usize) as i64;
        if more <= left.min(EXACT - out[at]) {
            out[at] += more;
            left -= more;
        }
    }
    // The rest, in two places where one number cannot hold it.
    for at in [random.below(count), 0, count - 1] {
        let more = left.min(EXACT - out[at]);
        out[at] += more;
        left -= more;
    }
    out
}
