//! Log files through the library in this process: opened, read and checked.

use bawersun::*;

use crate::door::{line, Rows};
use crate::lent::{Lent, Seen};
use crate::pwl::Record;

/// The outputs of a read, each so many values longer than the front asks.
struct OwnOutputs {
    units: Lent<u16>,
    x: Lent<u64>,
    z: Lent<u64>,
    phases: Lent<u64>,
    claimed: Lent<u64>,
}

/// How many values each output needs.
fn needed(front: Front) -> [usize; 5] {
    let (rows, phases) = (front.m * words(front.n), phase_words(front.m));
    [front.order + front.listed + front.extra + 2 * front.entries, rows, rows, phases, 2 * rows + phases]
}

impl OwnOutputs {
    fn of(lengths: [usize; 5]) -> Self {
        let [units, x, z, phases, claimed] = lengths.map(|length| length as u64);
        let output = Lent::output;
        Self {
            units: Lent::output(units),
            x: output(x),
            z: output(z),
            phases: output(phases),
            claimed: output(claimed),
        }
    }

    fn lent(&mut self) -> Outputs<'_> {
        let (units, x, z) = (self.units.write(), self.x.write(), self.z.write());
        Outputs { units, x, z, phases: self.phases.write(), claimed: self.claimed.write() }
    }

    fn look(&self, seen: &mut Seen, content: [usize; 5]) {
        seen.past("units past their content", &self.units, content[0]);
        seen.past("x past its content", &self.x, content[1]);
        seen.past("z past its content", &self.z, content[2]);
        seen.past("phases past their content", &self.phases, content[3]);
        seen.past("claimed past its content", &self.claimed, content[4]);
    }
}

/// A little more than is needed of each output.
const MORE_ROOM: usize = 3;

/// The verdict on a file, in the words of the program `verdict`: it is opened, read and checked. What was read is held to the record.
pub fn verdict(file: &[u8], record: Option<&Record>) -> String {
    let (file, mut seen) = (Lent::of(file.iter().copied()), Seen::default());
    let opened = pwl_open(file.read());
    let lengths = opened.map_or([MORE_ROOM; 5], needed);
    let mut out = OwnOutputs::of(lengths.map(|length| length + MORE_ROOM));
    let front = pwl_read(file.read(), out.lent());
    out.look(&mut seen, if front.is_ok() { lengths } else { [0; 5] });
    if front.is_ok() && front != opened {
        return "open and read give other fronts".to_string();
    }
    let said = line(front, |front| checked(front, &out, record, &mut seen));
    if front.is_ok() {
        one_short(&file, lengths, &mut seen);
    }
    seen.read("the file", &file);
    seen.told(said.trim_start_matches("refuse ").to_string())
}

/// The checker's word on what was read.
fn checked(front: Front, out: &OwnOutputs, record: Option<&Record>, seen: &mut Seen) -> String {
    let [units, rows, _, phases, _] = needed(front);
    let (order, rest) = out.units.read()[..units].split_at(front.order);
    let (listed, rest) = rest.split_at(front.listed);
    let (extra, log) = rest.split_at(front.extra);
    let (cx, rest) = out.claimed.read().split_at(rows);
    let (cz, cp) = (&rest[..rows], &rest[rows..rows + phases]);
    let (x, z, p) = (&out.x.read()[..rows], &out.z.read()[..rows], &out.phases.read()[..phases]);
    let same = record.is_some_and(|record| {
        let sets = [(&record.start, [x, z, p]), (&record.claim, [cx, cz, cp])];
        (record.n as usize, record.m as usize) == (front.n, front.m)
            && [&record.order[..], &record.listed, &record.extra, &record.log] == [order, listed, extra, log]
            && sets.iter().all(|(set, words)| [&set.x[..], &set.z, &set.p] == *words)
    });
    if !same {
        return "another run than the file holds".to_string();
    }
    let part = |words: &[u64]| Lent::of(words.iter().copied());
    let mut start = Rows { n: front.n, m: front.m, x: part(x), z: part(z), phases: part(p) };
    let said = start.changed().check(Lists { order, listed, extra }, log, Words { x: cx, z: cz, phases: cp });
    start.look(seen, said.is_ok_and(|said| !matches!(said, Verdict::BadEntry(_))));
    line(said, |said| match said {
        Verdict::Yes => "yes".to_string(),
        Verdict::BadEntry(place) => format!("bad entry {place}"),
        Verdict::Differs(place) => format!("row {place} differs"),
        Verdict::NotReduced => "not reduced".to_string(),
    })
}

/// With one value too few in one of the outputs, a file that can be read is 14, and nothing is written.
fn one_short(file: &Lent<u8>, lengths: [usize; 5], seen: &mut Seen) {
    for which in (0..lengths.len()).filter(|which| lengths[*which] > 0) {
        let mut short = lengths;
        short[which] -= 1;
        let mut out = OwnOutputs::of(short);
        if pwl_read(file.read(), out.lent()) != Err(Refusal::Short) {
            seen.0.push("an output that is too short was taken");
        }
        out.look(seen, [0; 5]);
    }
}
