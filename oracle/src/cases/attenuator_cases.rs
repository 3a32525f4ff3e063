//! The attenuator: lists of calls through manta's own attenuator.rs.
use crate::cases::ran::{word, Ran, Ran::*};
use crate::clock::Instant;
use crate::hpsdr::proto2::attenuator::{AttenuationCause, AttenuationStep, Controller, Timing};
use std::time::Duration;

/// A call's octets: its kind, and the reading.
const CALL: usize = 9;

fn called(c: &mut Controller, kind: u8, now: Instant) -> Option<AttenuationStep> {
    match kind {
        0 => c.observe(false, now),
        1 => c.observe(true, now),
        2 => c.tick(now),
        _ => panic!("a call of kind {kind}"),
    }
}

fn told(step: Option<AttenuationStep>) -> [u8; 3] {
    step.map_or([0; 3], |s| match s.cause {
        AttenuationCause::Overload => [1, s.from_db, s.to_db],
        AttenuationCause::Quiet => [2, s.from_db, s.to_db],
    })
}

fn calls(a: &[u64], p: &[u8]) -> Ran {
    assert!(a[0] < 256 && p.len() % CALL == 0);
    let timing = Timing {
        hold: Duration::from_nanos(a[1]),
        trip_after: Duration::from_nanos(a[2]),
        release_after: Duration::from_nanos(a[3]),
    };
    let mut c = Controller::new(a[0] as u8, Instant::at(a[4]), timing);
    let mut p = p.to_vec();
    for call in p.chunks_exact_mut(CALL) {
        let reading = u64::from_be_bytes(call[1..].try_into().unwrap());
        let step = called(&mut c, call[0], Instant::at(reading));
        call[..3].copy_from_slice(&told(step));
        call[3] = c.db();
    }
    word(&p)
}

fn nanoseconds(d: Duration) -> Ran {
    Number(d.as_nanos() as u64)
}

pub fn run(name: &str, a: &[u64], p: &[u8]) -> Option<Ran> {
    Some(match name {
        "attenuator" => calls(a, p),
        "timing_hold" => nanoseconds(Timing::default().hold),
        "timing_trip" => nanoseconds(Timing::default().trip_after),
        "timing_release" => nanoseconds(Timing::default().release_after),
        _ => return None,
    })
}
