//! The cases of a run: all small ones, every refusal alone and in pairs, the edges of the form, whole numbers in both
//! editions, phases by both engines, logs walked back, states of many basis vectors, texts of rows, phases at the
//! ends of words, reductions at the edges of the table, and then as many random ones as asked for.

use crate::random::Random;
use crate::small::{self, spoiled, Sink};
use crate::{engines, forms, late, malformed, phases, states, texts, undoing, valid, whole};

pub fn all(seed: u64, count: u64, sink: Sink) {
    small::all(sink);
    forms::all(sink);
    forms::longest(sink);
    whole::all(seed, count / 10, sink);
    engines::all(seed, count / 10, sink);
    undoing::all(seed, count / 10, sink);
    states::all(seed, count / 10, sink);
    texts::all(seed, count / 10, sink);
    phases::all(&[0, 1, 3, 65], sink);
    late::all(seed, count / 25, sink);
    for i in 0..count {
        sink(random_line(&mut Random::of(seed, i)));
    }
}

pub fn random_line(random: &mut Random) -> String {
    match random.below(1000) {
        0..=19 => malformed::line(random),
        20..=169 => spoiled(random).line(),
        _ => valid::case(random).line(),
    }
}
