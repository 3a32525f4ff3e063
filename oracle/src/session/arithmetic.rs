//! What elapsed time and rate give, by the session's own private functions: a session is opened, its fields are set,
//! and the function is called. A time is read off as what it takes off the longest elapsed one, 2^64 - 1 ns.
use super::*;
use crate::calls::call::{Arrival, Datagram, Iq, Waiting};

pub const LONGEST: u64 = u64::MAX;

pub fn jump_limit(ns: u64, rate: f64) -> u64 {
    plausible_lost_datagrams(Duration::from_nanos(ns), rate)
}

/// At any rate: `open` accepts four.
pub fn opened(rate: f64) -> Protocol2IqSource {
    let mut source = open(&Settings::default()).unwrap().source;
    source.sample_rate_hz = rate;
    source
}

pub fn restart_missing(ns: u64, rate: f64) -> u64 {
    let mut source = opened(rate);
    let missing = source.report_restart(Duration::from_nanos(ns));
    assert_eq!(source.pending_discontinuity, Some(missing));
    missing
}

/// In a window that opened the longest time ago, with n samples accounted.
fn parked(n: u64, rate: f64) -> Protocol2IqSource {
    let mut source = opened(rate);
    source.last_accepted_iq = Instant::at(LONGEST);
    source.parked = Some(Parked {
        from: Instant::at(0),
        accounted: n,
        left: 1,
    });
    source
}

/// By what is left of the longest time: a time past it leaves nothing, as that time itself does.
pub fn taken_off(left: Duration) -> u64 {
    LONGEST - left.as_nanos() as u64
}

pub fn account_time(n: u64, rate: f64) -> u64 {
    taken_off(parked(n, rate).unaccounted(Instant::at(LONGEST)))
}

/// The call in which the Rust handles a datagram, at the longest reading.
fn arrival(number: u32, waiting: Waiting) -> Call {
    Call::Arrival(Arrival {
        at: LONGEST,
        later: LONGEST,
        datagram: Datagram::Iq(Iq::valid(number)),
        waiting,
        buffer: None,
    })
}

/// After number 0 a waiting number n stands for n datagrams: itself and a gap, which the jump limit must allow.
pub fn covered_time(n: u32, rate: f64) -> u64 {
    let mut source = parked(0, rate);
    source.tracker.observe(0);
    let waiting = Waiting(if n == 0 { vec![] } else { vec![(n, n)] });
    let body = || source.restart_outage(Duration::ZERO);
    let (left, _) = alone(&Settings::default(), arrival(0, waiting), body);
    let total = source.backlog_datagrams(Duration::from_nanos(LONGEST));
    assert_eq!(total, n.into());
    taken_off(left)
}

/// Whether a gap of k datagrams, which the jump limit must allow, went to the missing samples.
pub fn gap_below_half(k: u32, rate: f64) -> bool {
    let mut source = opened(rate);
    source.tracker.observe(0);
    let octets = Iq::valid(k + 1).octets();
    source.recv_buf[..octets.len()].copy_from_slice(&octets);
    let call = arrival(k + 1, Waiting::default());
    let body = || source.handle_iq(octets.len());
    alone(&Settings::default(), call, body).0.unwrap();
    let slots = [source.pending_missing, source.pending_discontinuity];
    let missing = Some(k as u64 * wire::SAMPLES_PER_DATAGRAM as u64);
    assert!(slots == [missing, None] || slots == [None, missing]);
    slots[0].is_some()
}
