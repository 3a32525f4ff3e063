//! Readings, by the standard library's Instant, which is what the scripted one holds.
use crate::cases::ran::{Ran, Ran::*};
use crate::clock::Instant;

fn since(now: u64, then: u64) -> Ran {
    let passed = Instant::at(now).saturating_duration_since(Instant::at(then));
    Number(passed.as_nanos() as u64)
}

pub fn run(name: &str, a: &[u64], _: &[u8]) -> Option<Ran> {
    (name == "since").then(|| since(a[0], a[1]))
}
