//! A fuzzer of the program `verdict`: files changed at random, over and over, starting from whole ones. Every run has to end,
//! with status 0 and the model's line. What can still be read joins the files to start from.

use std::collections::BTreeMap;
use std::time::{Duration, Instant};

use crate::files::{large, nothing, p9, small};
use crate::pwl::{image, length, line_of, read, Record, COUNTS_AT, FRONT, LONGEST, M_AT, N_AT};
use crate::random::Random;
use crate::spawn::Way;
use crate::verdicts::{counts, hex, kind_of, place_of, wrong};

/// The files to start from: so many at first, and at most.
const FIRST: usize = 300;
const MOST: usize = 3000;

const SHOWN: u64 = 20;

pub fn run(seconds: u64, seed: u64, program: &[String]) -> usize {
    let mut random = Random::of(seed, 29);
    let mut pool = first_files(&mut random);
    let mut lines = BTreeMap::new();
    let (mut runs, mut differing) = (0u64, 0u64);
    // what this process ran before it became this program counts too
    let before = processor_seconds();
    let (place, until) = (place_of(0), Instant::now() + Duration::from_secs(seconds));
    while Instant::now() < until {
        let file = changed(&mut random, &pool);
        let way = random.pick(&[Way::Pipe, Way::Pipe, Way::Pipe, Way::Pipe, Way::Pipe, Way::Pipe, Way::Pieces]);
        let line = line_of(&file);
        runs += 1;
        if let Some(reason) = wrong(program, &file, way, &place) {
            differing += 1;
            if differing <= SHOWN {
                println!("differs: run {runs} ({} bytes, {way:?}): {reason}", file.len());
                println!("  {}", hex(&file));
            }
        }
        keep(&mut random, &mut pool, file, &line);
        *lines.entry(kind_of(&line)).or_default() += 1;
    }
    println!("lines of the model: {}", counts(&lines));
    let worked = processor_seconds().zip(before).map_or("an unknown part".to_string(), |(s, t)| format!("{} s", s - t));
    println!("fuzz-verdict: seed {seed}, {seconds} s, {worked} of them of processor time");
    println!("fuzz-verdict: {runs} runs, {differing} with a difference, a crash, a hang or another text");
    differing as usize + (runs == 0) as usize
}

/// The processor time of this process and of the programs that it ran, behind the name in the line of /proc, in hundredths.
fn processor_seconds() -> Option<u64> {
    let line = std::fs::read_to_string("/proc/self/stat").ok()?;
    let fields: Vec<&str> = line.rsplit_once(')')?.1.split_whitespace().collect();
    let ticks: Option<Vec<u64>> = fields.get(11..15)?.iter().map(|field| field.parse().ok()).collect();
    Some(ticks?.iter().sum::<u64>() / 100)
}

fn first_files(random: &mut Random) -> Vec<Vec<u8>> {
    let mut out = vec![image(&nothing()), image(&p9())];
    for i in 0..FIRST {
        out.push(image(&if i % 20 == 19 { large(random) } else { small(random) }));
    }
    out
}

/// A file that is read, or by chance another, stays to be changed again. The first ones stay for ever.
fn keep(random: &mut Random, pool: &mut Vec<Vec<u8>>, file: Vec<u8>, line: &str) {
    let read = !["17", "18", "19", "20", "too large"].contains(&line);
    if file.len() > LONGEST || !random.chance(if read { 200 } else { 5 }) {
        return;
    }
    if pool.len() < MOST {
        pool.push(file);
    } else {
        pool[random.within(FIRST, MOST - 1)] = file;
    }
}

/// One of the files with one to five changes: of bytes, or where it is read of what it holds.
fn changed(random: &mut Random, pool: &[Vec<u8>]) -> Vec<u8> {
    let mut file = random.pick(pool);
    for _ in 0..random.pick(&[1, 1, 1, 2, 2, 3, 5]) {
        match read(&file) {
            Ok(mut record) if random.chance(500) => {
                change_record(random, &mut record);
                file = image(&record);
            }
            _ => change_bytes(random, &mut file, pool),
        }
    }
    file
}

fn any_byte(random: &mut Random) -> u8 {
    let byte = random.below(256) as u8;
    random.pick(&[0, 1, 127, 128, 255, byte, byte, byte])
}

/// Numbers that are easily taken for others.
fn any_count(random: &mut Random) -> u64 {
    let power = 1u64 << random.below(64);
    let near = random.below(9) as u64;
    let word = random.word();
    random.pick(&[
        near,
        power,
        power - 1,
        power + near,
        power.wrapping_sub(near),
        near.wrapping_neg(),
        word,
        1 << 63,
        u64::MAX,
    ])
}

fn any_unit(random: &mut Random) -> u16 {
    let power = 1u16 << random.below(16);
    let near = random.below(5) as u16;
    let word = random.word() as u16;
    random.pick(&[
        near,
        near,
        near,
        power,
        power - 1,
        power.wrapping_add(near),
        near.wrapping_neg(),
        word,
        4095,
        4096,
        4097,
    ])
}

/// Bytes over those of a file, from a place on; where they do not fit, nothing.
fn put(file: &mut [u8], at: usize, bytes: &[u8]) {
    if let Some(place) = file.get_mut(at..at + bytes.len()) {
        place.copy_from_slice(bytes);
    }
}

fn change_bytes(random: &mut Random, file: &mut Vec<u8>, pool: &[Vec<u8>]) {
    let (at, other) = (random.below(file.len() + 1), random.pick(pool));
    let many = random.pick(&[1, 1, 2, 4, 8, 32, 500]);
    match random.below(14) {
        0 | 1 if at < file.len() => file[at] ^= 1 << random.below(8),
        2 if at < file.len() => file[at] = any_byte(random),
        3 => file.truncate(at),
        4 => {
            let byte = any_byte(random);
            file.splice(at..at, vec![byte; many]);
        }
        5 => {
            file.drain(at..(at + many).min(file.len()));
        }
        // the head of one, the tail of another, from the same place or from any
        6 => {
            let from = if random.chance(500) { at.min(other.len()) } else { random.below(other.len() + 1) };
            file.splice(at.., other[from..].iter().copied());
        }
        7 => {
            let from = random.below(other.len() + 1);
            file.splice(at..at, other[from..(from + many).min(other.len())].iter().copied());
        }
        8 | 9 => put(file, random.pick(&COUNTS_AT), &any_count(random).to_le_bytes()),
        10 => put(file, random.pick(&[N_AT, M_AT]), &any_unit(random).to_le_bytes()),
        11 => put(file, at, &any_unit(random).to_le_bytes()),
        12 => fit(file),
        _ => {
            let byte = any_byte(random);
            file.extend(vec![byte; many]);
        }
    }
}

/// The body of a file made as long as its front says, where that is no more than the longest and a little.
fn fit(file: &mut Vec<u8>) {
    if file.len() < FRONT {
        return;
    }
    let word = |at: usize| u64::from_le_bytes(file[at..at + 8].try_into().expect("eight bytes"));
    let unit = |at: usize| u16::from_le_bytes(file[at..at + 2].try_into().expect("two bytes"));
    let asked = length(unit(N_AT), unit(M_AT), COUNTS_AT.map(word));
    if asked <= LONGEST as u128 + 9 {
        file.resize(asked as usize, 0);
    }
}

fn change_record(random: &mut Random, record: &mut Record) {
    let unit = any_unit(random);
    let number = if random.chance(700) { random.below(record.m as usize + 1) as u16 } else { unit };
    match random.below(10) {
        0 => change_list(random, &mut record.order, unit),
        1 => change_list(random, &mut record.listed, number),
        2 => change_list(random, &mut record.extra, number),
        3 => {
            let at = 2 * random.below(record.log.len() / 2 + 1);
            record.log.splice(at..at, [number, random.below(record.m as usize + 1) as u16]);
        }
        4 if !record.log.is_empty() => {
            let at = 2 * random.below(record.log.len() / 2);
            record.log.drain(at..at + 2);
        }
        5 if !record.log.is_empty() => {
            let at = random.below(record.log.len());
            record.log[at] = number;
        }
        6 => record.claim = record.start.clone(),
        7 => std::mem::swap(&mut record.start, &mut record.claim),
        _ => change_word(random, record),
    }
}

fn change_list(random: &mut Random, list: &mut Vec<u16>, number: u16) {
    let at = random.below(list.len() + 1);
    match random.below(4) {
        0 => list.insert(at, number),
        1 if at < list.len() => list[at] = number,
        2 if at < list.len() => {
            list.remove(at);
        }
        _ if !list.is_empty() => {
            let (one, other) = (random.below(list.len()), random.below(list.len()));
            list.swap(one, other);
        }
        _ => {}
    }
}

fn change_word(random: &mut Random, record: &mut Record) {
    let set = if random.chance(500) { &mut record.start } else { &mut record.claim };
    let words = [&mut set.x, &mut set.z, &mut set.p].into_iter().nth(random.below(3)).expect("a part");
    if words.is_empty() {
        return;
    }
    let at = random.below(words.len());
    match random.below(4) {
        0 => words[at] = any_count(random),
        1 => words[at] = 0,
        _ => words[at] ^= 1 << random.below(64),
    }
}
