//! What elapsed time and rate give: the session of manta's mod.rs. None where it can't be brought to the number, and
//! double_cases.rs judges the expression.
use crate::cases::double_cases::from_seconds;
use crate::cases::ran::{unless_panics, Ran, Ran::*};
use crate::hpsdr::proto2::session::arithmetic;
use crate::hpsdr::proto2::wire::SAMPLES_PER_DATAGRAM;

/// None where the sum with the socket buffer's datagrams passes 2^64.
fn limit(ns: u64, rate: f64) -> Option<u64> {
    let body = || arithmetic::jump_limit(ns, rate);
    unless_panics("attempt to add with overflow", body)
}

fn jump_limit(ns: u64, rate: f64) -> Ran {
    let past = Skipped("a jump limit past 2^64 - 1, where it stays: the Rust's sum overflows");
    limit(ns, rate).map_or(past, Number)
}

/// k, where a datagram can be so far ahead of the expected one without a restart, after the longest time.
fn ahead(k: u64, rate: f64) -> Option<u32> {
    let plain = k < 1 << 31 && k <= limit(arithmetic::LONGEST, rate)?;
    plain.then_some(k as u32)
}

fn covered_time(n: u64, rate: f64) -> Option<Ran> {
    let n = ahead(n, rate)?;
    Some(from_seconds(|| arithmetic::covered_time(n, rate).into()))
}

fn below_half(n: u64, rate: f64) -> Option<Ran> {
    let samples = SAMPLES_PER_DATAGRAM as u64;
    let gap = n > 0 && n % samples == 0;
    let k = gap.then(|| ahead(n / samples, rate))??;
    Some(Number(arithmetic::gap_below_half(k, rate) as u64))
}

pub fn run(name: &str, a: &[u64], _: &[u8]) -> Option<Ran> {
    let &[n, rate] = a else {
        return None;
    };
    let rate = f64::from_bits(rate);
    Some(match name {
        "jump_limit" => jump_limit(n, rate),
        "restart_missing" => Number(arithmetic::restart_missing(n, rate)),
        "account_time" => from_seconds(|| arithmetic::account_time(n, rate).into()),
        "covered_time" => return covered_time(n, rate),
        "below_half" => return below_half(n, rate),
        _ => return None,
    })
}
