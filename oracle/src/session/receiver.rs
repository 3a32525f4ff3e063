//! A receiver's rules by the session's own private functions: a session is opened, its fields are set, and the function is
//! called, or a datagram is handled that makes it so.
use super::arithmetic::{opened, LONGEST};
use super::*;
use crate::calls::call::{Arrival, Datagram, Iq, Waiting};
use crate::InputHealthCounters;
use std::sync::atomic::AtomicU64;

/// The two slots, and dropped, gaps and malformed.
#[derive(Clone)]
pub struct Told {
    pub slots: [Option<u64>; 2],
    pub counts: [u64; 3],
}

/// A window: 1 where it is open, its anchor, its account and what is left of it.
fn window(w: [u64; 4]) -> Option<Parked> {
    (w[0] != 0).then(|| Parked {
        from: Instant::at(w[1]),
        accounted: w[2],
        left: w[3],
    })
}

pub fn unaccounted(rate: f64, accepted: u64, w: [u64; 4], now: u64) -> u64 {
    let mut source = opened(rate);
    source.last_accepted_iq = Instant::at(accepted);
    source.parked = window(w);
    source.unaccounted(Instant::at(now)).as_nanos() as u64
}

fn arrival(at: u64, later: u64, number: u32, waiting: &[u32]) -> Call {
    Call::Arrival(Arrival {
        at,
        later,
        datagram: Datagram::Iq(Iq::valid(number)),
        waiting: Waiting(waiting.iter().map(|&n| (n, n)).collect()),
        buffer: None,
    })
}

/// The readings are the last accepted one, the arrival's and the later one; next is the number that is expected.
pub fn outage(rate: f64, readings: [u64; 3], w: [u64; 4], next: u32, waiting: &[u32]) -> u64 {
    let [accepted, at, later] = readings;
    let mut source = opened(rate);
    source.parked = window(w);
    source.last_accepted_iq = Instant::at(at);
    source.tracker.observe(next.wrapping_sub(1));
    let since_last = Duration::from_nanos(at.saturating_sub(accepted));
    let call = arrival(at, later, next.wrapping_sub(1), waiting);
    let body = || source.restart_outage(since_last);
    alone(&Settings::default(), call, body).0.as_nanos() as u64
}

fn handled(source: &mut Protocol2IqSource, at: u64, number: u32) {
    let octets = Iq::valid(number).octets();
    source.recv_buf[..octets.len()].copy_from_slice(&octets);
    let call = arrival(at, at, number, &[]);
    let body = || source.handle_iq(octets.len());
    alone(&Settings::default(), call, body).0.unwrap();
}

/// A gap of k datagrams, or none, at the longest reading, where the jump limit allows it.
pub fn used(w: [u64; 4], k: u32) -> [u64; 4] {
    let mut source = opened(48000.0);
    source.parked = window(w);
    source.last_accepted_iq = Instant::at(0);
    source.tracker.observe(99);
    handled(&mut source, LONGEST, 100 + k);
    source
        .parked
        .map_or([0; 4], |p| [1, p.from.reading(), p.accounted, p.left])
}

/// The number that is told as an event where 100 is expected.
fn number(event: u64, k: u32) -> u32 {
    match event {
        0 => 100,
        1 => 100 + k,
        2 => 99,
        _ => 0,
    }
}

/// What a session holds after an event so long after the last accepted one.
fn after(rate: f64, event: u64, k: u32, ns: u64, given: Told) -> Told {
    let count = |n| Arc::new(AtomicU64::new(n));
    let mut source = opened(rate);
    source.last_accepted_iq = Instant::at(0);
    source.tracker.observe(99);
    [source.pending_missing, source.pending_discontinuity] = given.slots;
    source.health_counters = Arc::new(InputHealthCounters {
        dropped_packets: count(given.counts[0]),
        gaps_detected: count(given.counts[1]),
        malformed_packets: count(given.counts[2]),
        ..Default::default()
    });
    handled(&mut source, ns, number(event, k));
    let g = source.gap_stats();
    Told {
        slots: [source.pending_missing, source.pending_discontinuity],
        counts: [g.dropped_packets, g.gaps_detected, g.malformed_packets],
    }
}

/// And what was told missing: what empty slots then hold.
pub fn reported(rate: f64, event: u64, k: u32, ns: u64, given: Told) -> (Told, u64) {
    let empty = Told {
        slots: [None; 2],
        ..given.clone()
    };
    let missing = after(rate, event, k, ns, empty).slots;
    let told = after(rate, event, k, ns, given);
    (told, missing.iter().flatten().sum())
}
