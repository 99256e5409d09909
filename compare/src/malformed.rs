//! Lines that are not of the form, or barely are: one change to the text of a sound line.

use crate::random::Random;
use crate::valid;

pub fn line(random: &mut Random) -> String {
    loop {
        let line = valid::case(random).line();
        if line.len() > 400 {
            continue;
        }
        return changed(random, &line);
    }
}

fn changed(random: &mut Random, line: &str) -> String {
    match random.below(10) {
        0 => without_field(random, line),
        1 => format!("{line} {}", random.pick(&["0", "-", "", "x", "0,0"])),
        2 => line.replacen(' ', "  ", 1),
        3 => format!("{}{line}", random.pick(&["x", " ", "-", "ok ", "Z"])),
        4 => with_byte(random, line),
        5 => other_field(random, line),
        6 => random
            .pick(&["phase2 1 1 1 1", "get", "reduceall", " ", "x", "elem", "PHASE1 0 0 0 0", "phase1"])
            .to_string(),
        7 => with_zeros(random, line),
        8 => line.replacen(',', random.pick(&[",,", ", ", ";", "", ":"]), 1),
        _ => line[..random.within(1, line.len() - 1)].to_string(),
    }
}

fn without_field(random: &mut Random, line: &str) -> String {
    let mut fields: Vec<&str> = line.split(' ').collect();
    fields.remove(random.below(fields.len()));
    if fields.is_empty() {
        "x".to_string()
    } else {
        fields.join(" ")
    }
}

fn with_byte(random: &mut Random, line: &str) -> String {
    let mut bytes = line.as_bytes().to_vec();
    let at = random.within(1, bytes.len() - 1);
    bytes[at] = random.pick(b"ghABF-+.,:;x_\t0 9#");
    String::from_utf8(bytes).expect("a line is ASCII")
}

/// Zeros before an item, so that it has up to two digits too many for its kind; or before a letter.
fn with_zeros(random: &mut Random, line: &str) -> String {
    let starts: Vec<usize> = (1..line.len()).filter(|at| matches!(line.as_bytes()[at - 1], b' ' | b',')).collect();
    if starts.is_empty() {
        return "x".to_string();
    }
    let at = random.pick(&starts);
    let at = at + line[at..].starts_with('-') as usize;
    let digits = line[at..].find([' ', ',']).unwrap_or(line.len() - at);
    let wanted = random.pick(&[2, 15, 16, 17, 18, 19, 20, 21, 22]);
    format!("{}{}{}", &line[..at], "0".repeat(wanted.max(digits) - digits), &line[at..])
}

/// Another text in place of a field, among them numbers just outside of their kinds.
fn other_field(random: &mut Random, line: &str) -> String {
    let texts = [
        "-",
        "--",
        "",
        "0x1",
        "10000000000000000",
        "ffffffffffffffff",
        "4096",
        "65536",
        "00000000000000000",
        "00000000000000000000",
        "000000000000000000000",
        "18446744073709551616",
        "100000000000000000000",
        "-1",
        "-0",
        "2147483648",
        "-2147483649",
        "-2147483648",
        "1,",
        ",1",
        ",",
        "1,,2",
        "1,-",
        "-,1",
        "W",
        "1.0",
        "+1",
        "FF",
        "1:2",
        "0,0,0",
        "0,0,0,0",
    ];
    let mut fields: Vec<&str> = line.split(' ').collect();
    let at = random.below(fields.len());
    fields[at] = random.pick(&texts);
    let line = fields.join(" ");
    if line.is_empty() {
        "x".to_string()
    } else {
        line
    }
}
