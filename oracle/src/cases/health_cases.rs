//! The counts: manta's own InputHealthCounters, cut out of lib.rs.
use crate::cases::ran::{Ran, Ran::*};
use crate::InputHealthCounters;
use std::sync::atomic::AtomicU64;
use std::sync::Arc;

const DROPPED: u64 = 1001;
const GAPS: u64 = 2002;
const MALFORMED: u64 = 3003;

fn counts(dropped: u64, gaps: u64, malformed: u64) -> InputHealthCounters {
    let count = |n| Arc::new(AtomicU64::new(n));
    InputHealthCounters {
        dropped_packets: count(dropped),
        gaps_detected: count(gaps),
        malformed_packets: count(malformed),
        ..Default::default()
    }
}

fn all(c: &InputHealthCounters) -> [u64; 3] {
    [
        c.dropped_packets(),
        c.gaps_detected(),
        c.malformed_packets(),
    ]
}

/// The count, after those beside it were seen to have stayed.
fn dropped(n: u64, k: u64) -> Ran {
    let c = counts(n, GAPS, MALFORMED);
    c.record_dropped(k);
    assert_eq!(all(&c)[1..], [GAPS, MALFORMED]);
    Number(all(&c)[0])
}

fn gap(n: u64) -> Ran {
    let c = counts(DROPPED, n, MALFORMED);
    c.record_gap();
    assert_eq!([all(&c)[0], all(&c)[2]], [DROPPED, MALFORMED]);
    Number(all(&c)[1])
}

fn malformed(n: u64) -> Ran {
    let c = counts(DROPPED, GAPS, n);
    c.record_malformed();
    assert_eq!(all(&c)[..2], [DROPPED, GAPS]);
    Number(all(&c)[2])
}

pub fn run(name: &str, a: &[u64], _: &[u8]) -> Option<Ran> {
    Some(match name {
        "record_dropped" => dropped(a[0], a[1]),
        "record_gap" => gap(a[0]),
        "record_malformed" => malformed(a[0]),
        "loss_total" => Skipped("the loss total is not in the Rust"),
        _ => return None,
    })
}
