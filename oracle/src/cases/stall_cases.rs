//! The soft stall: manta's own stall.rs.
use crate::cases::ran::{word, Ran, Ran::*};
use crate::clock::Instant;
use crate::stall::StallEpisode;
use std::time::Duration;

fn due(a: &[u64]) -> Ran {
    let mut e = StallEpisode::new(Duration::from_nanos(a[0]));
    if a[1] == 1 {
        e.note_delivery();
    }
    let due = e.due(
        Instant::at(a[2]),
        Instant::at(a[3]),
        Duration::from_nanos(a[4]),
    );
    Number(due as u64)
}

/// The episode after some calls, and what the last one handed out.
fn after(soft: Duration, calls: &[u8]) -> (StallEpisode, bool) {
    let mut e = StallEpisode::new(soft);
    let mut gave = false;
    for kind in calls {
        gave = match kind {
            0 => {
                e.note_delivery();
                false
            }
            1 => {
                e.report();
                false
            }
            2 => e.take(),
            _ => panic!("a call of kind {kind}"),
        };
    }
    (e, gave)
}

/// The flags are private: a report is due after the soft time where samples came, and a take tells whether one is pending.
fn calls(soft: u64, p: &[u8]) -> Ran {
    let (last, now) = (Instant::at(0), Instant::at(soft));
    let soft = Duration::from_nanos(soft);
    let hard = soft + Duration::from_nanos(1);
    let told = |n: usize| {
        let (mut e, gave) = after(soft, &p[..n]);
        4 * gave as u8 + 2 * e.due(last, now, hard) as u8 + e.take() as u8
    };
    word(&(1..=p.len()).map(told).collect::<Vec<_>>())
}

pub fn run(name: &str, a: &[u64], p: &[u8]) -> Option<Ran> {
    match name {
        "stall_due" => Some(due(a)),
        "stall_calls" => Some(calls(a[0], p)),
        _ => None,
    }
}
