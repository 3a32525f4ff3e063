//! The practice radio, which manta has not. What it writes is read by manta's own readers; of what it reads, manta's own writers
//! tell whether some values give it, and which.
use crate::cases::ran::{word, Ran, Ran::*};
use crate::cases::wire_cases::{given, parsed};
use crate::hpsdr::discovery::{parse_reply, DiscoveryProtocol, DiscoveryStatus};
use crate::hpsdr::proto2::wire::*;

/// The octets of what a radio keeps, at the front of a case's.
pub const RADIO: usize = 38;

/// The place of run among them, which is 0 or 1.
pub const RUN: usize = 20;

const LENGTHS: [usize; 4] = [
    GENERAL_LEN,
    RX_SPECIFIC_LEN,
    TX_SPECIFIC_LEN,
    HIGH_PRIORITY_LEN,
];

/// Where each stream's part begins in what a radio keeps.
const PARTS: [usize; 4] = [0, 5, 12, 16];

/// The octets that are not 0, each behind its place.
pub fn placed(packet: &[u8]) -> Vec<u8> {
    let octet = |(i, v): (usize, &u8)| [(i / 256) as u8, (i % 256) as u8, *v];
    let not_zero = packet.iter().enumerate().filter(|(_, v)| **v != 0);
    not_zero.flat_map(octet).collect()
}

fn packets(placed: &[u8], length: u64) -> Vec<u8> {
    let mut p = vec![0; length as usize];
    for octet in placed.chunks_exact(3) {
        p[octet[0] as usize * 256 + octet[1] as usize] = octet[2];
    }
    p
}

fn u32_at(p: &[u8], at: usize) -> u32 {
    u32::from_be_bytes(p[at..at + 4].try_into().unwrap())
}

/// The packet that manta writes of the values which stand in one of the same length, and those values as a radio keeps them. None
/// for a rate that manta does not encode.
fn again(stream: usize, p: &[u8]) -> Option<(Vec<u8>, Vec<u8>)> {
    let seq = u32_at(p, 0);
    let count = &p[..4];
    Some(match stream {
        0 => (
            general_packet(seq, &given(0, p[59].into())).to_vec(),
            [count, &p[59..60]].concat(),
        ),
        1 => {
            let khz = rate_khz(f64::from(u16::from_be_bytes([p[18], p[19]])) * 1000.0)?;
            let packet = rx_specific_packet(seq, &given(p[4].into(), 0), khz);
            (packet, [count, &p[4..5], &khz.to_be_bytes()].concat())
        }
        2 => (tx_specific_packet(seq).to_vec(), count.to_vec()),
        _ => {
            let [phase, alex1, alex0] = [9, 1428, 1432].map(|at| u32_at(p, at));
            let packet = high_priority_packet(seq, p[4] == 1, phase, alex0, alex1, p[1443]);
            let phase = phase.to_be_bytes();
            let run = [p[4]];
            let kept = [count, &run, &phase, &phase, &p[1428..1436], &p[1443..]].concat();
            (packet, kept)
        }
    })
}

/// 20 or 21, and else the radio keeps the values: a packet is right where manta writes the same.
fn read(radio: &mut [u8], stream: usize, p: &[u8]) -> Result<(), u64> {
    if p.len() != LENGTHS[stream] {
        return Err(20);
    }
    match again(stream, p) {
        Some((packet, kept)) if packet == p => {
            radio[PARTS[stream]..][..kept.len()].copy_from_slice(&kept);
            Ok(())
        }
        _ => Err(21),
    }
}

fn command(is_left: bool, a: &[u64], p: &[u8]) -> Ran {
    let stream = a[0] as usize;
    if stream >= LENGTHS.len() {
        return Skipped("an offset of no command: manta sends to four ports");
    }
    let mut p = p.to_vec();
    let packet = packets(&p[RADIO..], a[1]);
    match read(&mut p[..RADIO], stream, &packet) {
        Err(number) if !is_left => Word(format!("r:{number}")),
        _ => word(&p),
    }
}

fn commands(is_counted: bool, a: &[u64], p: &[u8]) -> Ran {
    let mut p = p.to_vec();
    let offsets = p[RADIO..][..a[0] as usize].to_vec();
    let packets = packets(&p[RADIO + offsets.len()..], a[1]);
    let mut rest = &packets[..];
    let mut accepted = 0;
    for stream in offsets.into_iter().map(usize::from) {
        let Some(&length) = LENGTHS.get(stream) else {
            break;
        };
        let (packet, behind) = rest.split_at(length.min(rest.len()));
        accepted += read(&mut p[..RADIO], stream, packet).is_ok() as u64;
        rest = behind;
    }
    if is_counted {
        return Number(accepted);
    }
    word(&p)
}

/// Octets are the radio's where manta reads the packet at their front as what was given, those behind it are as they were, and no
/// bit of the packet that is 1 could be 0.
fn reads(length: usize, p: &[u8], as_given: impl Fn(&[u8]) -> bool + 'static) -> Ran {
    if p.len() < length {
        return Skipped("15 of a packet that the radio writes: manta writes none");
    }
    let before = p.to_vec();
    Reads(Box::new(move |p| {
        if p.len() != before.len() || p[length..] != before[length..] {
            return false;
        }
        let packet = &p[..length];
        let is_needed = |bit: usize| {
            let mut other = packet.to_vec();
            other[bit / 8] &= !(1 << (bit % 8));
            other == packet || !as_given(&other)
        };
        as_given(packet) && (0..8 * length).all(is_needed)
    }))
}

const NOT_GIVEN: Ran = Skipped("21 of a packet that the radio writes: manta writes none");

fn samples(a: &[u64]) -> Vec<i32> {
    let by_rule = |i: u64| ((a[2] + i * a[3]) as i32) << 8 >> 8;
    let mut all: Vec<i32> = (0..a[1]).map(by_rule).collect();
    if let Some(one) = all.get_mut(a[4] as usize) {
        *one = a[5] as u32 as i32;
    }
    all
}

fn datagram(a: &[u64], p: &[u8]) -> Ran {
    let samples = samples(a);
    let has_24_bits = |x: &i32| (-8388608..8388608).contains(x);
    if samples.len() != 2 * SAMPLES_PER_DATAGRAM || !samples.iter().all(has_24_bits) {
        return NOT_GIVEN;
    }
    let seq = a[0] as u32;
    let scaled: Vec<f32> = samples.iter().map(|x| *x as f32 / 8388608.0).collect();
    reads(IQ_DATAGRAM_LEN, p, move |p| {
        parsed(p) == (Ok(seq), scaled.clone())
    })
}

fn status(bit: u64, p: &[u8]) -> Ran {
    let is_bit = move |bits: u8| u64::from(bits & ADC0_OVERLOAD) == bit;
    reads(STATUS_LEN, p, move |p| {
        adc_overload_bits(p).is_some_and(is_bit)
    })
}

fn reply(a: &[u64], p: &[u8]) -> Ran {
    if a[0] != 2 {
        return NOT_GIVEN;
    }
    let a: [u64; 6] = a.try_into().unwrap();
    reads(60, p, move |p| {
        parse_reply(p).is_some_and(|r| {
            let status = match r.status {
                DiscoveryStatus::Available => 2,
                DiscoveryStatus::InUse => 3,
            };
            let fields = [status, r.board_id, r.firmware, r.receivers.unwrap_or(0)];
            let mac = r.mac.iter().fold(0, |n, v| n * 256 + u64::from(*v));
            r.protocol == DiscoveryProtocol::P2 && fields.map(u64::from) == a[1..5] && mac == a[5]
        })
    })
}

pub fn run(name: &str, a: &[u64], p: &[u8]) -> Option<Ran> {
    Some(match name {
        "read_command" => command(false, a, p),
        "command_left" => command(true, a, p),
        "read_commands" => commands(false, a, p),
        "commands_accepted" => commands(true, a, p),
        "iq_datagram" => datagram(a, p),
        "status_packet" => status(a[0], p),
        "discovery_reply" => reply(a, p),
        "datagram_left" | "status_left" | "reply_left" => {
            Skipped("what a refusal leaves of the radio's buffer: manta writes no such packet")
        }
        "new_radio" => Skipped("a radio before any packet: manta has none"),
        _ => return None,
    })
}
