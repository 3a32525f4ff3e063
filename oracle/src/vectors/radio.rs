//! Command packets of manta's own writers, for a radio to read.
use super::octets::{count, wrong};
use super::Page;
use crate::cases::{answer, given, placed, spelt, RADIO, RUN};
use crate::hpsdr::proto2::wire::*;
use crate::random::Random;
use crate::rates;

/// A packet of each stream, and what a radio keeps of it: the values that it was made from.
fn drawn(draw: &mut Random) -> [(Vec<u8>, Vec<u8>); 4] {
    let seq = [(); 4].map(|_| count(draw));
    let [adcs, enable] = [draw.below(256), draw.below(256)];
    let khz = draw.one_of(rates::khz());
    let [phase, alex0, alex1] = [(); 3].map(|_| draw.any() as u32);
    let (run, db) = (draw.percent(50), draw.below(32) as u8);
    let board = given(adcs, enable);
    let octets = |n: u32| n.to_be_bytes().to_vec();
    let general = vec![octets(seq[0]), vec![enable as u8]];
    let receive = vec![octets(seq[1]), vec![adcs as u8], khz.to_be_bytes().to_vec()];
    let words = [phase, phase, alex1, alex0].map(octets).concat();
    let high = vec![octets(seq[3]), vec![run as u8], words, vec![db]];
    [
        (general_packet(seq[0], &board).to_vec(), general.concat()),
        (rx_specific_packet(seq[1], &board, khz), receive.concat()),
        (tx_specific_packet(seq[2]).to_vec(), octets(seq[2])),
        (
            high_priority_packet(seq[3], run, phase, alex0, alex1, db),
            high.concat(),
        ),
    ]
}

fn case(stream: usize, radio: &[u8], packet: &[u8]) -> String {
    let p = spelt(&[radio, &placed(packet)].concat());
    format!("read_command {stream} {} {p}", packet.len())
}

pub fn commands(page: &mut Page, draw: &mut Random) {
    page.title("read_command: manta's own packets of any values, read by any radio; and with an octet one too high or too low");
    for _ in 0..8 {
        let mut at = 0;
        for (stream, (packet, kept)) in drawn(draw).into_iter().enumerate() {
            let mut radio = draw.octets(RADIO);
            radio[RUN] %= 2;
            let accepted = case(stream, &radio, &packet);
            let octets = packet.len() as u64;
            page.case(case(
                stream,
                &radio,
                &wrong(draw, packet.clone(), 0, octets),
            ));
            radio[at..at + kept.len()].copy_from_slice(&kept);
            at += kept.len();
            let after = spelt(&[radio, placed(&packet)].concat());
            assert_eq!(answer(&accepted), Some(after), "{accepted}");
            page.case(accepted);
        }
    }
}
