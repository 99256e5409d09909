//! Log files for the program `verdict`: whole ones, refused ones and broken ones. First a fixed part, the same for every seed:
//! marks and versions, counts, numbers at their limits, lengths around the longest. Then rounds, each around one run, until
//! there are as many files as asked for; file i of a seed does not depend on the number.

use crate::faults;
use crate::line::Case;
use crate::pwl::*;
use crate::random::Random;
use crate::reduction::{reduce, replay};
use crate::rows::{packed, unpacked, words_for, Pauli, Row, Set};
use crate::valid::{lists, over_rows, rows, OwnLists};

pub struct File {
    pub kind: &'static str,
    pub bytes: Vec<u8>,
}

const HONEST: &str = "finished runs, written as they are";
const DAMAGED: &str = "runs, three in four damaged in a log, a list or the claim";
const CLAIMS: &str = "claims of other rows";
const ENTRIES: &str = "a bad entry";
const OTHER_LOGS: &str = "logs of sound entries, claimed as they are";
const REFUSED: &str = "runs to be refused, for one or two reasons";
const PREFIXES: &str = "every prefix of a file";
const CHANGED: &str = "one byte changed, at every place";
const MORE: &str = "one byte more or less";
const COUNTS: &str = "counts to 2^64-1, and such that sums wrap";
const MARKS: &str = "mark and version";
const LIMITS: &str = "n and m at their limits";
const LENGTHS: &str = "lengths around 16,384, and far longer";
const NOISE: &str = "random bytes, whole or behind a front";

pub const KINDS: [&str; 14] = [
    HONEST, DAMAGED, CLAIMS, ENTRIES, OTHER_LOGS, REFUSED, PREFIXES, CHANGED, MORE, COUNTS, MARKS, LIMITS, LENGTHS,
    NOISE,
];

type Sink<'a> = &'a mut dyn FnMut(File);

pub fn all(seed: u64, count: u64, sink: Sink) {
    fixed(sink);
    rounds(seed, count, sink);
}

/// Whole rounds, until they made so many files.
pub fn rounds(seed: u64, count: u64, sink: Sink) {
    let mut made = 0;
    let mut number = 0;
    while made < count {
        round(seed, number, &mut |file| {
            made += 1;
            sink(file);
        });
        number += 1;
    }
}

// ---- records

/// A run reduced to its end, claimed with the rows that it left.
fn finished(n: usize, start: &[Row], lists: OwnLists) -> Record {
    let mut claim = start.to_vec();
    let log = reduce(&mut claim, lists.lent(), usize::MAX).units();
    record(n, start, lists, log, &claim)
}

fn record(n: usize, start: &[Row], lists: OwnLists, log: Vec<u16>, claim: &[Row]) -> Record {
    let OwnLists { order, listed, extra } = lists;
    Record {
        n: n as u16,
        m: start.len() as u16,
        order,
        listed,
        extra,
        start: packed(n, start),
        log,
        claim: packed(n, claim),
    }
}

/// P9 of the rules.
pub fn p9() -> Record {
    use Pauli::*;
    let start = [[Z, I], [X, X], [Y, I]].map(|paulis| Row { paulis: paulis.to_vec(), phase: 0 });
    finished(2, &start, OwnLists { order: vec![0, 1, 2, 3], listed: vec![0, 1, 2], extra: vec![] })
}

/// No qubit, no row, nothing.
pub fn nothing() -> Record {
    finished(0, &[], OwnLists { order: vec![], listed: vec![], extra: vec![] })
}

/// A run with a part of every kind: two words to a row, two phase words, extra rows.
fn every_part() -> Record {
    let mut random = Random::of(10, 0);
    let start = rows(&mut random, 65, 33);
    let order = vec![64, 0, 129, 1, 65];
    finished(65, &start, OwnLists { order, listed: vec![32, 0, 5], extra: vec![1, 31, 32, 1] })
}

/// Qubits and rows: mostly few, some at the edges of words and of phase words.
fn few(random: &mut Random) -> (usize, usize) {
    match random.below(100) {
        0..=69 => (random.within(0, 8), random.within(0, 6)),
        70..=79 => (random.pick(&[62, 63, 64, 65, 66]), random.within(0, 5)),
        80..=84 => (random.pick(&[127, 128, 129]), random.within(0, 4)),
        85..=94 => (random.within(0, 4), random.within(30, 34)),
        _ => (random.within(0, 3), random.pick(&[63, 64, 65])),
    }
}

/// Those of a file of up to the longest length, or a little more.
fn many(random: &mut Random) -> (usize, usize) {
    match random.below(6) {
        0 => (random.within(60, 64), random.within(100, 400)),
        1 => (random.within(65, 200), random.within(20, 120)),
        2 => (random.within(1, 8), random.within(200, 440)),
        3 => (random.pick(&[1000, 2000, 4095, 4096]), random.within(1, 4)),
        4 => (0, random.pick(&[500, 4094, 4095, 4096])),
        _ => (random.within(300, 500), random.within(20, 64)),
    }
}

fn run_of(random: &mut Random, n: usize, m: usize) -> (Vec<Row>, OwnLists) {
    (rows(random, n, m), lists(random, n, m))
}

/// A finished run of few qubits and rows.
pub fn small(random: &mut Random) -> Record {
    let (n, m) = few(random);
    let (start, lists) = run_of(random, n, m);
    finished(n, &start, lists)
}

/// A finished run of many, with a short order, so that its log is not too long for a file.
pub fn large(random: &mut Random) -> Record {
    let (n, m) = many(random);
    let (start, mut lists) = run_of(random, n, m);
    lists.order.truncate(random.within(1, 12));
    finished(n, &start, lists)
}

/// The image of a small one, short enough for files by the place.
fn short(random: &mut Random) -> Vec<u8> {
    loop {
        let file = image(&small(random));
        if file.len() <= 700 {
            return file;
        }
    }
}

// ---- the rounds

fn round(seed: u64, number: u64, sink: Sink) {
    let mut random = Random::of(seed, number);
    let run = if number % 25 == 24 { large(&mut random) } else { small(&mut random) };
    let mut put = |kind: &'static str, bytes: Vec<u8>| sink(File { kind, bytes });
    put(HONEST, image(&run));
    for _ in 0..4 {
        put(DAMAGED, image(&of_check(&checked(&mut random))));
        put(CLAIMS, image(&other_claim(&mut random, &run)));
        put(ENTRIES, image(&bad_entry(&mut random, &run)));
        put(OTHER_LOGS, image(&other_log(&mut random, &run)));
        put(REFUSED, image(&refused(&mut random)));
        put(MORE, one_more_or_less(&mut random, image(&run)));
        put(NOISE, noise(&mut random));
    }
    match number % 20 {
        3 => prefixes(&short(&mut random), &mut put),
        13 => {
            let file = short(&mut random);
            every_place(&mut random, &file, &mut put)
        }
        _ => {}
    }
}

/// A call of the checker on few rows: our own log, whole or damaged in one place.
fn checked(random: &mut Random) -> Case {
    let (n, m) = few(random);
    let start = rows(random, n, m);
    over_rows(random, "check", n, start)
}

fn first_last_or_any(random: &mut Random, count: usize) -> usize {
    let any = random.below(count);
    random.pick(&[0, count - 1, any])
}

/// A claim with a bit, a phase or a row changed; rows in no list are claimed wrongly too.
fn other_claim(random: &mut Random, run: &Record) -> Record {
    let (n, m) = (run.n as usize, run.m as usize);
    let mut out = run.clone();
    if m == 0 {
        return out;
    }
    let mut claim = unpacked(n, &run.claim);
    let r = first_last_or_any(random, m);
    match random.below(4) {
        0 => claim[r].phase ^= random.within(1, 3) as u8,
        1 | 2 if n > 0 => {
            let words = if random.chance(500) { &mut out.claim.x } else { &mut out.claim.z };
            let q = first_last_or_any(random, n);
            words[r * words_for(n) + q / 64] ^= 1 << (q % 64);
            return out;
        }
        _ => claim.swap(r, random.below(m)),
    }
    out.claim = packed(n, &claim);
    out
}

/// One entry made bad or most likely so, or one more that is.
fn bad_entry(random: &mut Random, run: &Record) -> Record {
    let mut out = run.clone();
    if out.log.is_empty() || random.chance(200) {
        out.log.extend([run.m.wrapping_sub(1), 0]);
    }
    let entries = out.log.len() / 2;
    let at = 2 * first_last_or_any(random, entries);
    let no_list = (0..run.m).find(|row| !run.listed.contains(row) && !run.extra.contains(row)).unwrap_or(run.m);
    let extra_only = run.extra.iter().copied().find(|row| !run.listed.contains(row)).unwrap_or(65535);
    match random.below(7) {
        0 => out.log[at] = out.log[at + 1],
        1 => out.log[at] = no_list,
        2 => out.log[at + 1] = no_list,
        3 => out.log[at + 1] = extra_only,
        4 => out.log[at] = run.m,
        5 => out.log[at + 1] = run.m,
        _ => out.log[at + random.below(2)] ^= 0x100 << random.below(8),
    }
    out
}

/// The run's log cut, or followed by entries that pass, and the claim that it leads to.
fn other_log(random: &mut Random, run: &Record) -> Record {
    let mut out = run.clone();
    out.log.truncate(2 * random.below(out.log.len() / 2 + 1));
    let targets = [run.listed.clone(), run.extra.clone()].concat();
    for _ in 0..random.below(6) {
        if !run.listed.is_empty() {
            let (target, source) = (random.pick(&targets), random.pick(&run.listed));
            if target != source {
                out.log.extend([target, source]);
            }
        }
    }
    let mut claim = unpacked(run.n as usize, &run.start);
    replay(&mut claim, &out.log);
    out.claim = packed(run.n as usize, &claim);
    out
}

/// A call of the checker with one fault or two of those that a file can have: lengths fit its n and m.
fn refused(random: &mut Random) -> Record {
    let possible: Vec<_> =
        faults::of_call("check").into_iter().filter(|fault| [4, 5, 6, 7, 15].contains(&fault.0)).collect();
    let mut case = checked(random);
    for _ in 0..random.within(1, 2) {
        for _ in 0..4 {
            if random.pick(&possible).1(&mut case, random) {
                break;
            }
        }
    }
    of_check(&case)
}

/// A byte appended, put in somewhere or taken out; or two.
fn one_more_or_less(random: &mut Random, mut file: Vec<u8>) -> Vec<u8> {
    for _ in 0..random.pick(&[1, 1, 1, 2]) {
        let at = random.below(file.len());
        let any = random.below(256) as u8;
        let byte = random.pick(&[0, 0, 1, 255, any]);
        match random.below(4) {
            0 => file.insert(at, byte),
            1 => {
                file.remove(at);
            }
            _ => file.push(byte),
        }
    }
    file
}

fn some_bytes(random: &mut Random, count: usize) -> Vec<u8> {
    let few = random.chance(500);
    (0..count).map(|_| if few { random.below(3) as u8 } else { random.below(256) as u8 }).collect()
}

/// Random bytes: alone, behind the mark, behind mark and version, behind a front; the last most often as many as it asks.
fn noise(random: &mut Random) -> Vec<u8> {
    let count = random.below(300);
    let kind = random.below(8);
    let some = some_bytes(random, count);
    match kind {
        0 => some,
        1 => [MARK.to_vec(), some].concat(),
        2 => [front(0, 0, [0; 4])[..N_AT].to_vec(), some].concat(),
        _ => {
            let (n, m) = (random.below(5) as u16, random.below(4) as u16);
            let counts = [(); 4].map(|_| random.below(4) as u64);
            let asked = length(n, m, counts) as usize - FRONT;
            let count = (asked + random.pick(&[0, 0, 0, 0, 1, 2])).saturating_sub(random.pick(&[0, 0, 0, 0, 1]));
            [front(n, m, counts), some_bytes(random, count)].concat()
        }
    }
}

fn prefixes(file: &[u8], put: &mut dyn FnMut(&'static str, Vec<u8>)) {
    (0..=file.len()).for_each(|length| put(PREFIXES, file[..length].to_vec()));
}

/// Each byte with one bit turned, and with another value.
fn every_place(random: &mut Random, file: &[u8], put: &mut dyn FnMut(&'static str, Vec<u8>)) {
    for at in 0..file.len() {
        for turned in [1 << random.below(8), random.within(1, 255) as u8] {
            let mut other = file.to_vec();
            other[at] ^= turned;
            put(CHANGED, other);
        }
    }
}

// ---- the fixed part

fn fixed(sink: Sink) {
    let mut put = |kind: &'static str, bytes: Vec<u8>| sink(File { kind, bytes });
    for run in [nothing(), p9(), every_part()] {
        put(HONEST, image(&run));
        counts(&run, &mut put);
    }
    prefixes(&image(&p9()), &mut put);
    marks(&image(&p9()), &mut put);
    limits(&mut put);
    lengths(&mut put);
}

/// Every byte in each place of mark and version; also in a file that ends there.
fn marks(file: &[u8], put: &mut dyn FnMut(&'static str, Vec<u8>)) {
    for at in 0..N_AT {
        for byte in 0..=255 {
            let mut other = file.to_vec();
            other[at] = byte;
            if byte < 3 || byte == 255 || MARK.contains(&byte) {
                put(MARKS, other[..=at].to_vec());
            }
            put(MARKS, other);
        }
    }
    for other in ["", "pwl", "PW", "LWP", " PWL", "PWLPWL", "\u{feff}PWL"] {
        put(MARKS, [other.as_bytes(), &file[MARK.len()..]].concat());
        put(MARKS, other.as_bytes().to_vec());
    }
}

/// One count a power of two, one less, or that much more than it is; and two that make up for each other where sums wrap.
fn counts(run: &Record, put: &mut dyn FnMut(&'static str, Vec<u8>)) {
    let file = image(run);
    let real = [run.order.len(), run.listed.len(), run.extra.len(), run.log.len() / 2].map(|c| c as u64);
    // every power for a file of some rows, the ends of bytes and of words for one of none and a long one
    let powers = || (0..64).filter(|power| run.m == 3 || power % 8 == 0 || power % 16 == 15 || *power > 60);
    let mut with = |counts: [u64; 4]| put(COUNTS, [front(run.n, run.m, counts), file[FRONT..].to_vec()].concat());
    for i in 0..4 {
        let mut one = |value: u64| {
            let mut counts = real;
            counts[i] = value;
            with(counts);
        };
        for power in powers() {
            let size = 1u64 << power;
            [size, size - 1, real[i].wrapping_add(size), real[i].wrapping_sub(size)].into_iter().for_each(&mut one);
        }
        [u64::MAX, u64::MAX - 1, u64::MAX - real[i], 3 << 62, real[i] + (3 << 62)].into_iter().for_each(&mut one);
        for j in (0..4).filter(|j| *j != i) {
            for size in [1, 2, 1 << 15, 1 << 16, 1 << 31, 1 << 32, 1 << 61, 1 << 62, 3 << 61, 1 << 63] {
                let mut counts = real;
                counts[i] = counts[i].wrapping_add(size);
                // an entry has as many bytes as two numbers of a list
                let (up, down) = (if j == 3 { size / 2 } else { size }, if i == 3 { 2 } else { 1 });
                counts[j] = counts[j].wrapping_sub(up.wrapping_mul(down));
                with(counts);
                counts[j] = real[j].wrapping_add(up);
                with(counts);
            }
        }
    }
    with([u64::MAX; 4]);
    with([1 << 63; 4]);
    with([1 << 62; 4]);
}

/// A file of zeros behind the front and these lists.
fn blank(n: u16, m: u16, order: &[u16], listed: &[u16], extra: &[u16], log: &[u16]) -> Record {
    let words = m as usize * words_for(n as usize);
    let phases = crate::rows::phase_words_for(m as usize);
    let set = Set { m: m as usize, x: vec![0; words], z: vec![0; words], p: vec![0; phases] };
    let (order, listed, extra, log) = (order.to_vec(), listed.to_vec(), extra.to_vec(), log.to_vec());
    Record { n, m, order, listed, extra, start: set.clone(), log, claim: set }
}

/// Numbers of qubits and rows around their limits, each with lists at theirs, files as long as they have to be, and not.
fn limits(put: &mut dyn FnMut(&'static str, Vec<u8>)) {
    for n in [0, 1, 2, 63, 64, 65, 4095, 4096, 4097, 8192, 32768, 65535] {
        for m in [0, 1, 31, 32, 33, 64, 4095, 4096, 4097, 8192, 65535] {
            if length(n, m, [0; 4]) > 2 * LONGEST as u128 {
                put(LIMITS, front(n, m, [0; 4]));
                put(LIMITS, [front(n, m, [0; 4]), vec![0; 1000]].concat());
                continue;
            }
            at_limits(n, m, &mut |record| put(LIMITS, image(&record)));
            let file = image(&blank(n, m, &[], &[], &[], &[]));
            put(LIMITS, file[..file.len() - 1].to_vec());
            put(LIMITS, [file, vec![0]].concat());
        }
    }
}

fn at_limits(n: u16, m: u16, put: &mut dyn FnMut(Record)) {
    put(blank(n, m, &[], &[], &[], &[]));
    let (column, row) = (n.wrapping_mul(2), m);
    for number in [column.wrapping_sub(1), column, column.wrapping_add(1), 0, 65535] {
        put(blank(n, m, &[number], &[], &[], &[]));
        put(blank(n, m, &[number, number], &[], &[], &[]));
    }
    for number in [row.wrapping_sub(1), row, row.wrapping_add(1), 0, 65535] {
        put(blank(n, m, &[], &[number], &[], &[]));
        put(blank(n, m, &[], &[], &[number], &[]));
        put(blank(n, m, &[], &[number, number], &[number, number], &[]));
        put(blank(n, m, &[], &[0], &[number], &[number, 0]));
        put(blank(n, m, &[], &[number], &[], &[0, number]));
    }
    if m == 0 {
        return;
    }
    // bits in the last row, the last of them that counts and the first that is spare; and all phases
    let (w, last) = (words_for(n as usize), m as usize - 1);
    let mut bits = |at: usize, bit: usize, part: usize| {
        let mut record = blank(n, m, &[], &[last as u16], &[], &[]);
        for (i, set) in [&mut record.start, &mut record.claim].into_iter().enumerate() {
            let words = [&mut set.x, &mut set.z, &mut set.p].into_iter().nth(part / 2).expect("a part");
            if part % 2 == 0 || i == 1 {
                words[at] |= 1 << bit;
            }
        }
        put(record);
    };
    for part in 0..4 {
        for bit in if w > 0 { vec![(n as usize - 1) % 64, n as usize % 64, 63] } else { vec![] } {
            bits((last + 1) * w - 1, bit, part);
        }
    }
    for part in 4..6 {
        for bit in [2 * (last % 32), 2 * (last % 32) + 1, (2 * (last % 32) + 2) % 64, 63] {
            bits(last / 32, bit, part);
        }
    }
}

/// Whole files just below and above the longest, cut and continued to lengths around it, and what is no file.
fn lengths(put: &mut dyn FnMut(&'static str, Vec<u8>)) {
    let around = [LONGEST - 2, LONGEST - 1, LONGEST, LONGEST + 1, LONGEST + 2, LONGEST + 3];
    let far = [2 * LONGEST - 1, 2 * LONGEST, 2 * LONGEST + 1, 65_535, 65_536, 65_537, 100_000, 300_000];
    for asked in around.into_iter().chain(far) {
        // a file of n qubits and no rows is as long as its extra rows, which then are too large; of one row they are not
        for (n, m) in [(3, 0), (3, 1), (64, 200), (4096, 2)] {
            let free = asked.saturating_sub(length(n, m, [0; 4]) as usize) / 2;
            let run = blank(
                n,
                m,
                &[0, 1],
                &vec![0; m.min(1) as usize],
                &vec![0; free.saturating_sub(2 + m.min(1) as usize)],
                &[],
            );
            let file = image(&run);
            put(LENGTHS, file.clone());
            put(LENGTHS, [&file[..], &[0; 3]].concat());
            put(LENGTHS, file[..file.len() - 1].to_vec());
        }
        put(LENGTHS, vec![0; asked]);
        put(LENGTHS, [image(&p9()), vec![0; asked - 195]].concat());
        put(LENGTHS, [front(1, 1, [0, 0, 0, 1 << 40]), vec![255; asked - FRONT]].concat());
        // as many entries as there is room for: of two listed rows, all sound, the last one bad, the claim another
        let entries = (asked - length(1, 2, [1, 2, 0, 0]) as usize) / 4;
        let log: Vec<u16> = (0..entries).flat_map(|_| [0, 1]).collect();
        let run = blank(1, 2, &[0], &[0, 1], &[], &log);
        put(LENGTHS, image(&run));
        let mut bad = run.clone();
        bad.log[2 * entries - 1] = 0;
        put(LENGTHS, image(&bad));
        let mut other = run;
        other.claim.x[1] = 1;
        put(LENGTHS, image(&other));
    }
    // what docs/PWL.md names: 466 rows of 64 qubits, 378 with two entries a row, 64 rows of 448 qubits
    for (n, m, entries) in [(64, 466, 0), (64, 467, 0), (64, 378, 756), (64, 379, 758), (448, 64, 0), (448, 65, 0)] {
        let (order, listed): (Vec<u16>, Vec<u16>) = ((0..2 * n).collect(), (0..m).collect());
        let log: Vec<u16> = (0..entries).flat_map(|i| [i % m, (i + 1) % m]).collect();
        put(LENGTHS, image(&blank(n, m, &order, &listed, &[], &log)));
    }
}

// ---- the page

/// The worked file of docs/PWL.md: the bytes behind each offset, up to two spaces.
fn worked(page: &str) -> Option<Vec<u8>> {
    let mut out = vec![];
    let part =
        page.lines().skip_while(|line| !line.starts_with("## P9")).skip(1).take_while(|line| !line.starts_with("## "));
    for line in part.filter(|line| line.starts_with("    ")) {
        let (at, rest) = line.trim_start().split_once("  ")?;
        if at.parse() != Ok(out.len()) {
            return None;
        }
        for byte in rest.split("  ").next()?.split(' ') {
            out.push(u8::from_str_radix(byte, 16).ok()?);
        }
    }
    Some(out)
}

/// Whether the model writes P9, as it reduces it, as the page does, and reads the page's bytes back.
pub fn agrees_with_page(page: &str) -> bool {
    worked(page).is_some_and(|file| file == image(&p9()) && read(&file) == Ok(p9()) && line_of(&file) == "yes")
}
