//! Functions of octets: packets over any octets, and datagrams whose deciding octets are right, or wrong by one.
use super::Page;
use crate::cases::spelt;
use crate::random::Random;

pub fn count(draw: &mut Random) -> u32 {
    let any = draw.any() as u32;
    draw.one_of(&[0, u32::MAX, any, any])
}

pub fn packets(page: &mut Page, draw: &mut Random) {
    page.title("packets over any octets, with up to five behind, which stay");
    for room in [60, 60, 61, 63, 65] {
        let [adcs, enable] = [draw.below(256), draw.below(256)];
        let [general, transmit] = [draw.octets(room), draw.octets(room)].map(|p| spelt(&p));
        page.case(format!(
            "general_packet {} {adcs} {enable} {general}",
            count(draw)
        ));
        page.case(format!("tx_specific_packet {} {transmit}", count(draw)));
    }
    for (room, khz) in [(1444, 384), (1446, draw.below(65536))] {
        let [adcs, enable] = [draw.below(256), draw.below(256)];
        let p = spelt(&draw.octets(room));
        page.case(format!(
            "rx_specific_packet {} {adcs} {enable} {khz} {p}",
            count(draw)
        ));
    }
    for (room, run, db) in [(1444, 1, 31), (1445, 0, 32), (1444, 1, draw.below(256))] {
        let [phase, alex0, alex1] = [(); 3].map(|_| draw.any() as u32);
        let p = spelt(&draw.octets(room));
        page.case(format!(
            "high_priority_packet {} {run} {phase} {alex0} {alex1} {db} {p}",
            count(draw)
        ));
    }
}

pub fn statuses(page: &mut Page, draw: &mut Random) {
    page.title("the overload bits of status datagrams");
    for length in [6, 58, 59, 60, 60, 60, 60, 60, 61, 62] {
        page.case(format!("adc_overload_bits {}", spelt(&draw.octets(length))));
    }
}

/// As long as that, with the header's fields right as far as they fit.
fn datagram(draw: &mut Random, length: usize) -> Vec<u8> {
    let mut p = draw.octets(length);
    let fields = [0, 24, 0, 238];
    for (to, octet) in p.iter_mut().skip(12).zip(fields) {
        *to = octet;
    }
    p
}

/// One octet of a range is one too high or too low.
pub fn wrong(draw: &mut Random, mut p: Vec<u8>, from: usize, octets: u64) -> Vec<u8> {
    let at = from + draw.below(octets) as usize;
    p[at] = p[at].wrapping_add(draw.one_of(&[1, 255]));
    p
}

pub fn iq_headers(page: &mut Page, draw: &mut Random) {
    page.title("I/Q headers: the count, or the row of 01 that refuses, and what it gives");
    for _ in 0..5 {
        for name in ["iq_header", "iq_value"] {
            let length = draw.below(24) as usize;
            page.case(format!("{name} {}", spelt(&datagram(draw, length))));
        }
    }
    for length in [1443, 1444] {
        page.case(format!("iq_header {}", spelt(&datagram(draw, length))));
    }
    for (name, from) in [("iq_header", 12), ("iq_value", 14)] {
        let p = datagram(draw, 1444);
        page.case(format!("{name} {}", spelt(&wrong(draw, p, from, 2))));
    }
}

pub fn iq_samples(page: &mut Page, draw: &mut Random) {
    page.title("I/Q samples of any octets, by their f32 patterns: first, last, and another");
    for place in [0, 475, 1 + draw.below(474)] {
        page.case(format!(
            "iq_sample {place} {}",
            spelt(&datagram(draw, 1444))
        ));
    }
}

pub fn requests(page: &mut Page, draw: &mut Random) {
    page.title("discovery_request, over any octets");
    for room in [60, 60, 61, 64] {
        page.case(format!("discovery_request {}", spelt(&draw.octets(room))));
    }
}

const SIGNATURES: [(&[u8], usize); 2] = [(&[0xef, 0xfe], 11), (&[0; 4], 21)];

/// The signature, a status that replies, and any octets.
fn reply(draw: &mut Random, signature: &[u8], length: usize) -> Vec<u8> {
    let mut p = [signature, &[draw.one_of(&[2, 3])]].concat();
    p.extend(draw.octets(64));
    p.truncate(length);
    p
}

pub fn replies(page: &mut Page, draw: &mut Random) {
    page.title("parse_reply: lengths about 11 and 21, and longer ones");
    for (signature, _) in SIGNATURES {
        let longer = [24 + draw.below(40), 24 + draw.below(40)];
        for length in (9..14).chain(19..24).chain(longer) {
            let p = reply(draw, signature, length as usize);
            page.case(format!("parse_reply {}", spelt(&p)));
        }
    }
    page.title("parse_reply: one of the octets that decide is one too high or too low");
    for (signature, least) in SIGNATURES {
        for at in 0..=signature.len() {
            for _ in 0..5 {
                let length = least + draw.below(3) as usize;
                let p = reply(draw, signature, length);
                page.case(format!("parse_reply {}", spelt(&wrong(draw, p, at, 1))));
            }
        }
    }
}
