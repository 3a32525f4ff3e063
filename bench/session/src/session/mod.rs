//! The Rust's cycles: this module stands inside manta's proto2 (oracle/build.rs), where it sees the private fields.
use super::*;
use crate::{clock, socket};

fn config() -> HpsdrConfig {
    HpsdrConfig {
        host: "10.0.0.2".into(),
        port: 1024,
        ddc_count: 1,
        sample_rate_hz: crate::RATE as f64,
        center_freq_hz: vec![7_000_000.0],
        auto_attenuation: None,
    }
}

/// n reads, each of one datagram so many numbers and nanoseconds after the one before. The sum of missing, pairs, packets and
/// counts, as in ../../../cycles.txt.
pub fn run(datagram: &[u8; 1444], buffer: &mut [Complex32], n: u64, step: u32, every: u64) -> u64 {
    clock::start();
    let mut source = Protocol2IqSource::open(&config(), wire::board_info(Some(1))).unwrap();
    source.recv_buf[..1444].copy_from_slice(datagram);
    socket::sent();
    let (mut told, mut number) = (0, 1u32);
    for _ in 0..n {
        socket::next(number);
        told += source.read(buffer).unwrap() as u64;
        number = number.wrapping_add(step);
        clock::forward(Duration::from_nanos(every));
    }
    let slots = [source.take_missing_samples(), source.take_discontinuity()];
    let counts = source.gap_stats();
    told += slots.into_iter().flatten().sum::<u64>() + socket::sent();
    told + counts.dropped_packets + counts.gaps_detected
}
