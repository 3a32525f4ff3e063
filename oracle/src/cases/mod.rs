//! Runs the cases (crates/cases/stdin) through manta's own functions. Says for each of manta's files how many lines were run
//! and how many differ, and how many lines the Rust has no counterpart for, and why. Of a case that is wrong on purpose the Rust
//! must differ from what is expected, and give what must be told.
mod attenuator_cases;
mod discovery_cases;
mod double_cases;
mod health_cases;
mod instant_cases;
mod radio_cases;
mod ran;
mod receiving_cases;
mod stall_cases;
mod stream_cases;
mod wire_cases;

pub use radio_cases::{placed, RADIO, RUN};
pub use ran::spelt;
use ran::Ran::{self, *};
use std::collections::BTreeMap;
pub use wire_cases::given;

/// None for a function of another file.
type Run = fn(&str, &[u64], &[u8]) -> Option<Ran>;

const FILES: [(&str, Run); 10] = [
    ("wire.rs", wire_cases::run),
    ("mod.rs", stream_cases::run),
    ("mod.rs's receiver", receiving_cases::run),
    ("attenuator.rs", attenuator_cases::run),
    ("stall.rs", stall_cases::run),
    ("discovery.rs", discovery_cases::run),
    (
        "wire.rs and discovery.rs beside the radio",
        radio_cases::run,
    ),
    ("lib.rs's counters", health_cases::run),
    ("std's Instant", instant_cases::run),
    ("std's f64 and Duration", double_cases::run),
];

/// The functions of octets alone, of which manta has no counterpart. A name that is neither here nor in a file above
/// is an error, so that no case goes unnoticed.
const OURS: [&str; 7] = [
    "get_u16",
    "get_u32",
    "put_u16",
    "put_u24",
    "put_u32",
    "clear",
    "is_zero",
];

fn number(s: &str) -> u64 {
    match s.strip_prefix("0x") {
        Some(hex) => u64::from_str_radix(hex, 16).unwrap(),
        None => s.parse().unwrap(),
    }
}

fn octets(s: &str) -> Vec<u8> {
    let digits = |i: usize| u8::from_str_radix(&s[2 * i..2 * i + 2], 16).unwrap();
    (0..s.len() / 2).map(digits).collect()
}

/// What stands left of the sign of equality: a name, numbers and octets.
fn split(left: &str) -> (&str, Vec<u64>, Vec<u8>) {
    let mut words = left.split_whitespace();
    let name = words.next().unwrap();
    let (mut a, mut p) = (vec![], vec![]);
    for w in words {
        match w.strip_prefix("x:") {
            Some(o) => p = octets(o),
            None => a.push(number(w)),
        }
    }
    (name, a, p)
}

/// The file's place above, and what it gives.
fn judged(name: &str, a: &[u64], p: &[u8]) -> Option<(usize, Ran)> {
    let run = |(file, f): (usize, &(&str, Run))| Some((file, (f.1)(name, a, p)?));
    FILES.iter().enumerate().find_map(run)
}

/// What the Rust gives for what stands left, as a case spells it; None where it has no counterpart.
pub fn answer(left: &str) -> Option<String> {
    let (name, a, p) = split(left);
    let (_, ran) = judged(name, &a, &p).unwrap_or_else(|| panic!("{left}"));
    match ran {
        Number(n) if ["alex0", "alex1", "iq_sample"].contains(&name) => Some(format!("{n:#010x}")),
        Number(n) => Some(n.to_string()),
        Word(w) => Some(w),
        Reads(_) | Skipped(_) => None,
    }
}

/// What came, as a case spells it: of octets that the Rust only reads, the first of these that are they.
fn came(ran: Ran, words: &[&str]) -> String {
    match ran {
        Number(n) => n.to_string(),
        Word(w) => w,
        Reads(are) => {
            let fits = |w: &&&str| w.strip_prefix("x:").is_some_and(|o| are(&octets(o)));
            words
                .iter()
                .find(fits)
                .unwrap_or(&"other octets")
                .to_string()
        }
        Skipped(why) => why.into(),
    }
}

/// A number may be written in hexadecimal.
fn same(came: &str, expected: &str) -> bool {
    came == expected || expected.starts_with("0x") && came == number(expected).to_string()
}

#[derive(Default)]
struct Tally {
    /// The lines run and those that differ, by file.
    ran: [(u32, u32); FILES.len()],
    skipped: BTreeMap<&'static str, u32>,
    /// Those that are wrong on purpose, and those of them of which the Rust gives something else.
    wrong: (u32, u32),
}

impl Tally {
    fn line(&mut self, at: usize, line: &str) {
        let (left, expected) = line.split_once(" = ").unwrap();
        let (name, a, p) = split(left);
        let (file, ran) = match judged(name, &a, &p) {
            None if OURS.contains(&name) => {
                return self.skip("octets by themselves: manta has no such functions")
            }
            None => panic!("line {at}: {name}: a function that is not known here"),
            Some((_, Skipped(why))) => return self.skip(why),
            Some(ran) => ran,
        };
        let came = came(ran, &[expected]);
        self.ran[file].0 += 1;
        if !same(&came, expected) {
            self.ran[file].1 += 1;
            println!("line {at}: {name}: expected {expected}, the Rust gives {came}");
        }
    }

    /// A case that is wrong on purpose, of which `told` must be told.
    fn wrong(&mut self, at: usize, line: &str, told: &str) {
        let given = told.strip_prefix("gave ").filter(|w| *w != "nothing");
        let Some(given) = given else {
            return self.skip("wrong on purpose: a function or a line that there is not");
        };
        let (left, expected) = line.split_once(" = ").unwrap();
        let (name, a, p) = split(left);
        let came = match judged(name, &a, &p) {
            None | Some((_, Skipped(_))) => {
                panic!("line {at}: {name}: the Rust can't tell what is wrong")
            }
            Some((_, ran)) => came(ran, &[expected, given]),
        };
        self.wrong.0 += 1;
        if same(&came, expected) || !same(&came, given) {
            self.wrong.1 += 1;
            println!("line {at}: {name}: wrong on purpose, {told}: the Rust gives {came}");
        }
    }

    fn skip(&mut self, why: &'static str) {
        *self.skipped.entry(why).or_default() += 1;
    }

    /// Whether none differs.
    fn tell(&self) -> bool {
        for (why, n) in &self.skipped {
            println!("{n} not run: {why}");
        }
        for ((file, _), (ran, differ)) in FILES.iter().zip(self.ran) {
            println!("{ran} cases run by {file}, {differ} differ");
        }
        let sum = |f: fn(&(u32, u32)) -> u32| self.ran.iter().map(f).sum::<u32>();
        println!(
            "{} cases run by the Rust, {} differ",
            sum(|r| r.0),
            sum(|r| r.1)
        );
        println!(
            "{} cases that are wrong on purpose, {} judged otherwise by the Rust",
            self.wrong.0, self.wrong.1
        );
        sum(|r| r.1) + self.wrong.1 == 0
    }
}

/// Whether none differs.
pub fn run(text: &str) -> bool {
    let mut tally = Tally::default();
    for (i, line) in text.lines().enumerate() {
        let (line, comment) = line.split_once('#').unwrap_or((line, ""));
        let line = line.trim();
        match comment.strip_prefix(" wrong: ") {
            _ if line.is_empty() => {}
            Some(told) => tally.wrong(i + 1, line, told),
            None => tally.line(i + 1, line),
        }
    }
    tally.tell()
}
