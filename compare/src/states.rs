//! States of many basis vectors: the call `elems`.

use crate::limits::VECTORS;
use crate::line::{joined, Case, Field};
use crate::random::Random;
use crate::small::Sink;
use crate::valid::{any_word, ints, masked, of_terms};

/// What decides at each end, and as many random ones as asked for.
pub fn all(seed: u64, count: u64, sink: Sink) {
    at_each_end(sink);
    for i in 0..count {
        sink(case(&mut Random::of(seed ^ 0x5747, i)).line());
    }
}

pub fn case(random: &mut Random) -> Case {
    let n = random.pick(&[1, 1, 2, 2, 3, 4, 7, 31, 63, 64]);
    let count = random.below(13);
    let (bras, kets) = (random.below(5), random.below(5));
    of_sizes(random, n, count, bras, kets)
}

/// Terms as those of one element, and two lists whose words mostly meet a block.
pub fn of_sizes(random: &mut Random, n: usize, count: usize, bras: usize, kets: usize) -> Case {
    let class = random.below(4);
    let mut terms = of_terms(random, "elemi", n, count);
    terms.fields.truncate(5);
    let x = terms.words(1).to_vec();
    let kinds: Vec<u64> = (0..random.within(1, 3)).map(|_| masked(n, any_word(random))).collect();
    let ket_words: Vec<u64> = (0..kets).map(|_| random.pick(&kinds)).collect();
    let bra_word = |random: &mut Random| match x.is_empty() || random.chance(100) {
        true => masked(n, any_word(random)),
        false => random.pick(&kinds) ^ random.pick(&x),
    };
    let bra_words: Vec<u64> = (0..bras).map(|_| bra_word(random)).collect();
    let powers = powers(random);
    let part = |random: &mut Random, many: usize, power: u32| match class {
        0 => ints(random, many),
        1 => (0..many).map(|_| random.below(7) as i32 - 3).collect(),
        _ => (0..many).map(|_| near(random, power)).collect::<Vec<i32>>(),
    };
    for i in [3, 4] {
        terms.fields[i] = Field::Ints(part(random, count, powers[0]));
    }
    let mut fields = terms.fields;
    for (words, power) in [(bra_words, powers[1]), (ket_words, powers[2])] {
        let many = words.len();
        fields.push(Field::Words(words));
        fields.push(Field::Ints(part(random, many, power)));
        fields.push(Field::Ints(part(random, many, power)));
    }
    Case::new("elems", fields)
}

/// Three powers of two that multiply to about 2 to the 63: elements near the ends of i64.
fn powers(random: &mut Random) -> [u32; 3] {
    let a = random.within(0, 31) as u32;
    let b = random.within(31 - a as usize, 31) as u32;
    let rest = (60 + random.below(4) as u32).saturating_sub(a + b).min(31);
    [rest, a, b]
}

/// 0, or a number next to a power of two, of either sign.
fn near(random: &mut Random, power: u32) -> i32 {
    if random.chance(250) {
        return 0;
    }
    let size = (1i64 << power) + random.pick(&[-1, 0, 0, 0, 1]);
    let signed = if random.chance(400) { -size } else { size };
    signed.clamp(i32::MIN as i64, i32::MAX as i64) as i32
}

/// Each of the nine numbers that can leave i64, where it does and none before it in the order of the work, and a neighbour
/// that stays; the ends of the sums; orders that matter; lists at their limit.
pub fn at_each_end(sink: Sink) {
    let least = i32::MIN.to_string();
    let half = 1 << 30;
    let mut put = |terms: &str, bras: &str, kets: &str| sink(format!("elems 1 {terms} {bras} {kets}"));
    let one = |re: i64, im: i64| format!("0 0 {re} {im}");
    let with = |re: &str, im: &str| format!("0 {re} {im}");
    let bra = with(&least, "0");
    // the first real sum: no block, so nothing else is in the way
    let none = "1 0 1 0";
    put(none, &with(&least, &least), &with(&least, &least));
    put(none, &with(&least, &least), &with(&least, "-2147483647"));
    // the four products of that times the element
    let along = with("0", &least);
    put(&one(2, 0), &bra, &bra);
    put(&one(-2, 0), &bra, &bra);
    put(&one(0, 2), &bra, &along);
    put(&one(0, 2), &bra, &with("0", "-2147483647"));
    put(&one(0, 2), &bra, &bra);
    put(&one(0, -2), &bra, &bra);
    put(&one(2, 0), &bra, &along);
    put(&one(-2, 0), &bra, &along);
    // a product that leaves i64 where the sum it is in would not
    put(&one(2, 2), &bra, &with(&least, &least));
    // its two sums
    let twice = with("2", "0");
    let both = with(&least, &least);
    put(&one(-half, half), &twice, &both);
    put(&one(-half, half - 1), &twice, &both);
    put(&one(-half, -half), &twice, &both);
    put(&one(-half, 1 - half), &twice, &both);
    // the running sum, real and imaginary, at both ends
    for (re, im) in [(1, 0), (0, 1), (-1, 0), (0, -1)] {
        put(&one(re, im), &bra, &format!("0,0 {least},{least} 0,0"));
        put(&one(re, im), &bra, &format!("0,0 {least},-2147483647 0,0"));
        put(&one(re, im), &bra, &format!("0,0,0 {least},{least},{least} 0,0,0"));
    }
    // bra outer, ket inner: the other order leaves i64 in the first and stays in the second
    put(&one(1, 0), &format!("0,0 {least},{least} 0,0"), &format!("0,0 {least},2147483647 0,0"));
    put(&one(1, 0), &format!("0,0 {least},2147483647 0,0"), &format!("0,0 {least},{least} 0,0"));
    // the bra is conjugated; words repeat and add; empty lists and no terms
    put(&one(1, 0), &with("2", "3"), &with("5", "7"));
    put(&one(1, 0), "0,0,1 1,2,4 0,0,0", "0,1,0 1,1,1 0,1,0");
    put(&one(1, 0), "- - -", "0 1 0");
    put(&one(1, 0), "0 1 0", "- - -");
    put("- - - -", "- - -", "- - -");
    put("- - - -", "0 5 6", "1 7 8");
    // lists at their limit, and one above it; 2 before 3
    for count in [VECTORS, VECTORS + 1] {
        let list = format!("{} {} {}", joined(&vec![0; count]), joined(&vec![1; count]), joined(&vec![0; count]));
        put(&one(3, -1), &list, "0 1 0");
        put(&one(3, -1), "0 1 0", &list);
        put(&one(3, -1), &list, &list);
    }
    put(&one(1, 0), &format!("{} - -", joined(&vec![0; VECTORS + 1])), "0 1 0");
    // each list's parts, and its words
    for list in ["0 1,1 0", "0 1 -", "2 1 0"] {
        put(&one(1, 0), list, "0 1 0");
        put(&one(1, 0), "0 1 0", list);
    }
}
