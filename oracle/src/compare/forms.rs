//! A list with its words in other forms that docs/CALLS.md allows: the generator writes each in one form alone.
use crate::random::Random;

const UNITS: [(&str, u64); 3] = [("us", 1_000), ("ms", 1_000_000), ("s", 1_000_000_000)];

/// The words of a call after its name that are readings.
fn readings(name: &str) -> std::ops::Range<usize> {
    match name {
        "begin" | "pass" | "take" => 1..2,
        "iq" | "status" | "datagram" => 1..3,
        _ => 0..0,
    }
}

/// A number with leading zeros, or as a reading with a unit.
fn number(r: &mut Random, digits: &str, reading: bool) -> String {
    let n: u64 = digits.parse().unwrap();
    let (unit, by) = r.one_of(&UNITS);
    match r.below(3) {
        0 if reading && n % by == 0 => format!("{}{unit}", n / by),
        1 => format!("00{digits}"),
        _ => digits.into(),
    }
}

fn word(r: &mut Random, name: &str, i: usize, word: &str) -> String {
    let start = word.find('=').map_or(0, |at| at + 1);
    let (key, value) = word.split_at(start);
    let reading = readings(name).contains(&i) || ["at=", "soft=", "hard="].contains(&key);
    if name == "datagram" && i == 4 {
        word.to_uppercase()
    } else if !value.is_empty() && value.bytes().all(|b| b.is_ascii_digit()) {
        key.to_string() + &number(r, value, reading)
    } else {
        word.into()
    }
}

fn line(r: &mut Random, line: &str) -> String {
    let mut words: Vec<&str> = line.split(' ').collect();
    let options = words
        .iter()
        .position(|w| w.contains('='))
        .unwrap_or(words.len());
    let by = r.below((words.len() - options).max(1) as u64);
    words[options..].rotate_left(by as usize);
    let mut text = r.one_of(&["", "", "\t", "# a comment\n", "\n"]).to_string();
    for (i, w) in words.iter().enumerate() {
        text += &word(r, words[0], i, w);
        text += r.one_of(&[" ", " ", "  ", "\t", "\r\t"]);
    }
    text + r.one_of(&["", "", "\r", "# begin 1"])
}

/// The list without its last newline.
pub fn other(r: &mut Random, list: &str) -> String {
    let calls = list.lines().filter(|l| !l.starts_with('#'));
    let lines: Vec<String> = calls.map(|l| line(r, l)).collect();
    lines.join("\n")
}
