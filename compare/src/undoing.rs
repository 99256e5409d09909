//! Logs walked back: from the rows that they left, which has to give the start again, and from any rows; our own logs,
//! whole, cut by a capacity or damaged, and logs of others; in either form.

use crate::line::{Case, Field};
use crate::random::Random;
use crate::reduction::reduce;
use crate::rows::packed;
use crate::small::Sink;
use crate::valid::{call_on, either_form, lists, of_call, rows, sizes};

pub fn all(seed: u64, count: u64, sink: Sink) {
    for i in 0..count {
        let mut random = Random::of(seed ^ 0xbac4, i);
        sink(left_by_reduction(&mut random).line());
        sink(of_call(&mut random, "undo").line());
    }
}

/// The rows that a reduction left, with its log: to its end, or to a capacity.
pub fn left_by_reduction(random: &mut Random) -> Case {
    let (n, m) = sizes(random);
    let mut rows = rows(random, n, m);
    let lists = lists(random, n, m);
    let capacity = if random.chance(300) { random.below(12) } else { 60_000 };
    let done = reduce(&mut rows, lists.lent(), capacity);
    let more = vec![Field::Shorts(lists.listed), Field::Shorts(lists.extra), either_form(random, done.units())];
    call_on("undo", n, &packed(n, &rows), more)
}
