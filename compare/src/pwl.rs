//! Log files, written from docs/PWL.md alone: a writer, a reader, and the line that the program `verdict` has to print.

use crate::line::{Case, Field, MORE, SET};
use crate::model::{self, set_at};
use crate::rows::{phase_words_for, words_for, Set};
use crate::valid::{call_on, further};

pub const MARK: &[u8; 3] = b"PWL";
pub const VERSION: u16 = 1;

/// The bytes before the order.
pub const FRONT: usize = 41;

/// Where n, m and the four counts stand.
pub const N_AT: usize = 5;
pub const M_AT: usize = 7;
pub const COUNTS_AT: [usize; 4] = [9, 17, 25, 33];

/// The longest input that the program looks at.
pub const LONGEST: usize = 16_384;

/// What a file holds. A log is units, two to an entry; both sets have the m of the file.
#[derive(Clone, Debug, PartialEq)]
pub struct Record {
    pub n: u16,
    pub m: u16,
    pub order: Vec<u16>,
    pub listed: Vec<u16>,
    pub extra: Vec<u16>,
    pub start: Set,
    pub log: Vec<u16>,
    pub claim: Set,
}

/// The bytes that a front of these numbers asks for: n, m, and the counts of the order, both lists and the log's entries.
/// Below 2 to the 69, whatever they are.
pub fn length(n: u16, m: u16, counts: [u64; 4]) -> u128 {
    let [a, b, c, k] = counts.map(u128::from);
    let words = m as u128 * words_for(n as usize) as u128;
    let phases = phase_words_for(m as usize) as u128;
    FRONT as u128 + 2 * a + 2 * b + 2 * c + 4 * k + 32 * words + 16 * phases
}

// ---- the writer

/// The image of a record whose log has whole entries and whose sets are as long as its n and m ask.
pub fn image(record: &Record) -> Vec<u8> {
    let counts = [record.order.len(), record.listed.len(), record.extra.len(), record.log.len() / 2].map(|c| c as u64);
    let mut out = front(record.n, record.m, counts);
    for list in [&record.order, &record.listed, &record.extra] {
        put_units(&mut out, list);
    }
    put_set(&mut out, &record.start);
    put_units(&mut out, &record.log);
    put_set(&mut out, &record.claim);
    out
}

/// The first 41 bytes of a file of these numbers.
pub fn front(n: u16, m: u16, counts: [u64; 4]) -> Vec<u8> {
    let mut out = MARK.to_vec();
    put_units(&mut out, &[VERSION, n, m]);
    put_words(&mut out, &counts);
    out
}

fn put_units(out: &mut Vec<u8>, units: &[u16]) {
    units.iter().for_each(|unit| out.extend(unit.to_le_bytes()));
}

fn put_words(out: &mut Vec<u8>, words: &[u64]) {
    words.iter().for_each(|word| out.extend(word.to_le_bytes()));
}

fn put_set(out: &mut Vec<u8>, set: &Set) {
    [&set.x, &set.z, &set.p].into_iter().for_each(|words| put_words(out, words));
}

// ---- the reader

/// What is left of a file. More is never taken than is there.
struct Rest<'a>(&'a [u8]);

impl Rest<'_> {
    fn units(&mut self, count: usize) -> Vec<u16> {
        let (taken, rest) = self.0.split_at(2 * count);
        self.0 = rest;
        taken.chunks(2).map(|b| b[0] as u16 + 256 * b[1] as u16).collect()
    }

    fn words(&mut self, count: usize) -> Vec<u64> {
        let (taken, rest) = self.0.split_at(8 * count);
        self.0 = rest;
        taken.chunks(8).map(|b| b.iter().rev().fold(0, |sum, byte| sum << 8 | *byte as u64)).collect()
    }

    fn set(&mut self, n: u16, m: u16) -> Set {
        let words = m as usize * words_for(n as usize);
        let (x, z) = (self.words(words), self.words(words));
        Set { m: m as usize, x, z, p: self.words(phase_words_for(m as usize)) }
    }
}

/// The record of a file, or 17 to 20.
pub fn read(file: &[u8]) -> Result<Record, u8> {
    let Some(behind_mark) = file.strip_prefix(MARK) else { return Err(17) };
    if behind_mark.len() < 2 || Rest(behind_mark).units(1) != [VERSION] {
        return Err(18);
    }
    if file.len() < FRONT {
        return Err(19);
    }
    let (numbers, body) = file[N_AT..].split_at(FRONT - N_AT);
    let mut numbers = Rest(numbers);
    let sizes = numbers.units(2);
    let counts = numbers.words(4);
    let (n, m) = (sizes[0], sizes[1]);
    let asked = length(n, m, [counts[0], counts[1], counts[2], counts[3]]);
    match (file.len() as u128).cmp(&asked) {
        std::cmp::Ordering::Less => Err(19),
        std::cmp::Ordering::Greater => Err(20),
        std::cmp::Ordering::Equal => Ok(body_of(n, m, &counts, Rest(body))),
    }
}

/// A body as long as its front says, so that every count is less than the file's length.
fn body_of(n: u16, m: u16, counts: &[u64], mut rest: Rest) -> Record {
    let mut list = |i: usize| rest.units(counts[i] as usize);
    let (order, listed, extra) = (list(0), list(1), list(2));
    let start = rest.set(n, m);
    let log = rest.units(2 * counts[3] as usize);
    let claim = rest.set(n, m);
    Record { n, m, order, listed, extra, start, log, claim }
}

// ---- the program

/// A record as a call of the checker, and back.
pub fn as_check(record: &Record) -> Case {
    let lists = [&record.order, &record.listed, &record.extra, &record.log].map(|list| Field::Shorts(list.clone()));
    call_on("check", record.n as usize, &record.start, [lists.to_vec(), further(&record.claim)].concat())
}

pub fn of_check(case: &Case) -> Record {
    let list = |i: usize| case.shorts(MORE + i).to_vec();
    let (start, claim) = (set_at(case, SET), set_at(case, MORE + 4));
    let (n, m) = (case.number(0) as u16, start.m as u16);
    Record { n, m, order: list(0), listed: list(1), extra: list(2), start, log: list(3), claim }
}

/// The line of the program, without its line feed.
pub fn line_of(input: &[u8]) -> String {
    match input.len() > LONGEST {
        true => "too large".to_string(),
        false => verdict_on(&read(input)),
    }
}

/// The same where there is room for any file.
pub fn verdict_on(record: &Result<Record, u8>) -> String {
    match record {
        Err(number) => number.to_string(),
        Ok(record) => said(&model::answer_to(&as_check(record))),
    }
}

/// The checker's answer in the words of the program.
fn said(answer: &str) -> String {
    let words: Vec<&str> = answer.split(' ').collect();
    match words[..] {
        ["refuse", number] => number.to_string(),
        ["ok", "bad", entry, ..] => format!("bad entry {entry}"),
        ["ok", "differs", row, ..] => format!("row {row} differs"),
        ["ok", "notreduced", ..] => "not reduced".to_string(),
        ["ok", "yes", ..] => "yes".to_string(),
        _ => unreachable!("an answer of the checker: {answer}"),
    }
}

/// Whether a line is one of the fixed texts: with a number in decimal, without leading zeros, where it has one.
pub fn is_fixed_text(line: &str) -> bool {
    let number = |text: &str| text.parse::<u16>().is_ok_and(|v| v.to_string() == text);
    let bad = line.strip_prefix("bad entry ").is_some_and(number);
    let differs = line.strip_prefix("row ").and_then(|rest| rest.strip_suffix(" differs")).is_some_and(number);
    let refusal = number(line) && REFUSALS.contains(&line.parse().unwrap_or(0));
    matches!(line, "yes" | "not reduced" | "too large") || bad || differs || refusal
}

/// The numbers that a file can draw from the program, by rank: 3 and 9 cannot arise from one, and nothing is lent.
pub const REFUSALS: [u8; 11] = [17, 18, 19, 20, 1, 2, 4, 5, 6, 7, 15];

#[cfg(test)]
mod tests {
    use super::*;
    use crate::files::p9;
    use crate::random::Random;
    use crate::valid;

    fn worked() -> Vec<u8> {
        image(&p9())
    }

    #[test]
    fn the_worked_file() {
        let file = worked();
        assert_eq!(file.len(), 195);
        let record = read(&file).expect("a file");
        assert_eq!((record.n, record.m), (2, 3));
        assert_eq!(
            (&record.order[..], &record.listed[..], &record.extra[..]),
            (&[0, 1, 2, 3][..], &[0, 1, 2][..], &[][..])
        );
        assert_eq!(record.log, [0, 1, 1, 0, 2, 0, 1, 2, 0, 1, 2, 1, 1, 2]);
        assert_eq!(record.start, Set { m: 3, x: vec![0, 3, 1], z: vec![1, 0, 1], p: vec![0] });
        assert_eq!(record.claim, Set { m: 3, x: vec![1, 2, 0], z: vec![0, 0, 1], p: vec![13] });
        assert_eq!(image(&record), file);
        assert_eq!(line_of(&file), "yes");
    }

    /// Each text of the program from a change to the worked file.
    #[test]
    fn every_text() {
        let changed = |at: usize, byte: u8| {
            let mut file = worked();
            file[at] = byte;
            line_of(&file)
        };
        assert_eq!(changed(111, 1), "bad entry 0");
        assert_eq!(changed(137, 1), "bad entry 6");
        assert_eq!(changed(187, 0x0c), "row 0 differs");
        assert_eq!(changed(179, 0), "row 2 differs");
        assert_eq!(changed(0, b'p'), "17");
        assert_eq!(changed(3, 2), "18");
        assert_eq!(changed(4, 1), "18");
        assert_eq!(changed(16, 0x80), "19");
        assert_eq!(changed(33, 6), "20");
        assert_eq!(changed(5, 1), "4");
        assert_eq!(changed(103, 0x40), "5");
        assert_eq!(changed(41, 4), "6");
        assert_eq!(changed(49, 1), "7");
        assert_eq!(changed(41, 1), "15");
        assert_eq!(line_of(&[]), "17");
        assert_eq!(line_of(b"PW"), "17");
        assert_eq!(line_of(b"PWL"), "18");
        assert_eq!(line_of(b"PWL\x01"), "18");
        assert_eq!(line_of(b"PWL\x01\x00"), "19");
        assert_eq!(line_of(&front(4097, 0, [0; 4])), "1");
        assert_eq!(line_of(&front(4096, 0, [0; 4])), "yes");
        assert_eq!(line_of(&vec![0; LONGEST]), "17");
        assert_eq!(line_of(&vec![0; LONGEST + 1]), "too large");
        let limit = [front(0, 4096, [0; 4]), vec![0; 2048]].concat();
        assert_eq!(line_of(&limit), "yes");
        let past = [front(0, 4097, [0; 4]), vec![0; 2064]].concat();
        assert_eq!(line_of(&past), "2");
        // the listed row has a 1 in the order, and so has the extra one
        let mut record = read(&worked()).expect("a file");
        (record.log, record.claim) = (vec![], record.start.clone());
        assert_eq!(line_of(&image(&record)), "not reduced");
    }

    /// Read is the inverse of image, and no file that is read differs from the image of what it holds.
    #[test]
    fn there_and_back() {
        for i in 0..300 {
            let mut random = Random::of(29, i);
            let (n, m) = (random.pick(&[0, 1, 2, 63, 64, 65, 130]), random.within(0, 35));
            let rows = valid::rows(&mut random, n, m);
            let record = of_check(&valid::over_rows(&mut random, "check", n, rows));
            let file = image(&record);
            let counts = [record.order.len(), record.listed.len(), record.extra.len(), record.log.len() / 2];
            assert_eq!(file.len() as u128, length(record.n, record.m, counts.map(|c| c as u64)));
            assert_eq!(read(&file).as_ref(), Ok(&record));
            assert_eq!(of_check(&as_check(&record)), record);
            let mut other = file.clone();
            let at = random.below(file.len());
            other[at] ^= random.within(1, 255) as u8;
            if let Ok(changed) = read(&other) {
                assert_eq!(image(&changed), other);
                assert_ne!(changed, record);
            }
        }
    }
}
