//! Packets that the practice radio must accept, and packets that it must refuse: the Rust sends none of the latter. Which rates
//! it must accept the Rust says.
use super::{Radio, LAYOUTS};
use crate::rates;

/// One that is accepted, with a count: a rate of 48 kHz, and 0 in every other field.
fn right(stream: usize) -> Vec<u8> {
    let mut packet = vec![0; LAYOUTS[stream].length];
    for &(at, value) in LAYOUTS[stream].fixed {
        packet[at] = value;
    }
    packet[3] = 1;
    if stream == 1 {
        packet[19] = 48;
    }
    packet
}

/// It with other octets from a place on.
fn with(stream: usize, at: usize, octets: &[u8]) -> Vec<u8> {
    let mut packet = right(stream);
    packet[at..at + octets.len()].copy_from_slice(octets);
    packet
}

fn accepts(stream: usize, packet: &[u8]) -> bool {
    let mut radio = Radio::default();
    radio.hear(stream, packet);
    radio.refused == 0
}

fn is_in_field(stream: usize, octet: usize) -> bool {
    let holds = |&(at, n): &(usize, usize)| (at..at + n).contains(&octet);
    LAYOUTS[stream].fields.iter().any(holds)
}

/// A field's values on both sides of each limit: where they stand, what they are, and whether they are accepted.
fn values() -> Vec<(usize, usize, Vec<u8>, bool)> {
    let rate = |khz: u16| (1, 18, khz.to_be_bytes().to_vec(), rates::is_accepted(khz));
    let mut values: Vec<_> = (0..=u16::MAX).map(rate).collect();
    for (at, most) in [(4, 1), (1443, 31)] {
        values.extend((0..=255).map(|x| (3, at, vec![x], x <= most)));
    }
    // the transmitter's phase word alone, in each of its octets
    values.extend((329..333).map(|at| (3, at, vec![1], false)));
    values
}

/// Each trial: the stream, the packet, and whether it is accepted.
fn trials() -> Vec<(usize, Vec<u8>, bool)> {
    let mut trials = vec![(4, right(0), false)];
    for stream in 0..4 {
        let packet = right(stream);
        trials.push((stream, packet[1..].to_vec(), false));
        trials.push((stream, [&packet[..], &[0]].concat(), false));
        for at in (0..packet.len()).filter(|&at| !is_in_field(stream, at)) {
            trials.push((stream, with(stream, at, &[packet[at] + 1]), false));
        }
        trials.push((stream, packet, true));
    }
    let valued = |(stream, at, octets, told): (usize, usize, Vec<u8>, bool)| {
        (stream, with(stream, at, &octets), told)
    };
    trials.extend(values().into_iter().map(valued));
    trials
}

pub fn check() -> bool {
    let trials = trials();
    let wrong = trials.iter().filter(|(s, p, told)| accepts(*s, p) != *told);
    let wrong = wrong.count();
    println!(
        "{} packets put to the practice radio of the comparison, {wrong} not judged as they should be",
        trials.len()
    );
    wrong == 0
}
