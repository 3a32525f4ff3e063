//! Doubles by themselves: the standard library's f64 and Duration, as manta's mod.rs and wire.rs use them.
use crate::cases::ran::{unless_panics, Ran, Ran::*};
use crate::hpsdr::proto2::session::arithmetic::{taken_off, LONGEST};
use crate::hpsdr::proto2::wire::SAMPLES_PER_DATAGRAM;
use std::time::Duration;

/// Nanoseconds that come of `Duration::from_secs_f64`.
pub fn from_seconds(body: impl FnOnce() -> u128) -> Ran {
    let ns = unless_panics("cannot convert float seconds to Duration", body);
    match ns.map(u64::try_from) {
        Some(Ok(ns)) => Number(ns),
        Some(Err(_)) => Skipped("a Duration past 2^64 - 1 ns: nanoseconds stays there"),
        None => Skipped("Duration::from_secs_f64 panics: nanoseconds is 0 or 2^64 - 1"),
    }
}

/// A NaN is told by one pattern, whichever it has.
fn bits(x: f64) -> Ran {
    Number(if x.is_nan() {
        0x7ff8 << 48
    } else {
        x.to_bits()
    })
}

fn of_double(name: &str, x: f64) -> Option<Ran> {
    Some(match name {
        "is_finite" => Number(x.is_finite() as u64),
        // as `validate_protocol2` tests it
        "is_whole" => Number((x.fract() == 0.0) as u64),
        "floor_u64" => Number(x.floor() as u64),
        "ceil_u64" => Number(x.ceil() as u64),
        "round_u64" => Number(x.round() as u64),
        "cast_u32" => Number((x as u32).into()),
        "round" => bits(x.round()),
        "nanoseconds" => from_seconds(|| Duration::from_secs_f64(x).as_nanos()),
        _ => return None,
    })
}

/// The expression in `restart_outage`, for a total that one waiting datagram can't stand for.
fn covered_time(n: u64, rate: f64) -> Ran {
    from_seconds(|| {
        let covered = Duration::from_secs_f64(n as f64 * SAMPLES_PER_DATAGRAM as f64 / rate);
        taken_off(Duration::from_nanos(LONGEST).saturating_sub(covered)).into()
    })
}

/// The test in `handle_iq`, for a number that is not that of a gap which the jump limit allows.
fn below_half(n: u64, rate: f64) -> Ran {
    Number(((n as f64) < rate / 2.0) as u64)
}

pub fn run(name: &str, a: &[u64], _: &[u8]) -> Option<Ran> {
    match (name, a) {
        ("seconds", &[ns]) => Some(bits(Duration::from_nanos(ns).as_secs_f64())),
        ("saturating_add", &[n, k]) => Some(Number(n.saturating_add(k))),
        ("covered_time", &[n, rate]) => Some(covered_time(n, f64::from_bits(rate))),
        ("below_half", &[n, rate]) => Some(below_half(n, f64::from_bits(rate))),
        (_, &[x]) => of_double(name, f64::from_bits(x)),
        _ => None,
    }
}
