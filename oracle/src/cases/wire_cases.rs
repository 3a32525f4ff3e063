//! Boards, filters, rates, the tracker, packets and datagrams: manta's own wire.rs.
use crate::cases::ran::{lent, option, Ran, Ran::*};
use crate::hpsdr::proto2::wire::*;
use num_complex::Complex32;

fn scheme(n: u64) -> FilterScheme {
    [
        FilterScheme::None,
        FilterScheme::Classic,
        FilterScheme::BandPassDual,
        FilterScheme::BandPass,
        FilterScheme::Bypass,
    ][n as usize]
}

/// 256 stands for a skipped discovery.
fn board(n: u64) -> BoardInfo {
    board_info(if n == 256 { None } else { Some(n as u8) })
}

/// A board by what its packets carry.
pub fn given(adcs: u64, enable: u64) -> BoardInfo {
    BoardInfo {
        adc_count: adcs as u8,
        filter_enable: enable as u8,
        ..board_info(None)
    }
}

/// A number that is stale where e is expected, and is not 0.
fn behind(e: u32) -> u32 {
    match e.wrapping_sub(1) {
        0 => e.wrapping_sub(2),
        s => s,
    }
}

/// The tracker's fields are private: one that expects e after `run` stale ones is made by feeding it numbers.
fn tracker(has: u64, e: u32, run: u64) -> Option<SeqTracker> {
    let mut t = SeqTracker::new();
    if has == 0 {
        return (run == 0).then_some(t);
    }
    assert_eq!(t.observe(e.wrapping_sub(1)), SeqEvent::InOrder);
    for _ in 0..run {
        assert_eq!(t.observe(behind(e)), SeqEvent::Stale);
    }
    Some(t)
}

/// How many stale ones a copy has taken: 8 less those that it takes until it restarts.
fn run_of(t: &SeqTracker, expected: u32) -> u64 {
    let mut t = t.clone();
    let left = (1..=8).find(|_| t.observe(behind(expected)) == SeqEvent::Restart);
    8 - left.unwrap()
}

fn observe(name: &str, a: &[u64]) -> Ran {
    if a[2] > 7 {
        return Skipped("a stale run above 7 can't be fed to the Rust's tracker");
    }
    let (e, seq) = (a[1] as u32, a[3] as u32);
    let Some(mut t) = tracker(a[0], e, a[2]) else {
        return Skipped("a stale run with nothing expected can't be fed to the Rust's tracker");
    };
    let event = t.observe(seq);
    // the expected number is the one that a copy takes as in order
    let in_order = |n: &u32| t.clone().observe(*n) == SeqEvent::InOrder;
    let next = [e, seq.wrapping_add(1)].into_iter().find(in_order).unwrap();
    Number(match (name, event) {
        ("observe_event", SeqEvent::InOrder) => 0,
        ("observe_event", SeqEvent::Gap(_)) => 1,
        ("observe_event", SeqEvent::Stale) => 2,
        ("observe_event", SeqEvent::Restart) => 3,
        ("observe_gap", SeqEvent::Gap(k)) => k as u64,
        ("observe_gap", _) => 0,
        ("observe_expected", _) => next as u64,
        _ => run_of(&t, next),
    })
}

/// The answer and the 476 f32; on refusal the output is as it was.
pub fn parsed(p: &[u8]) -> (Result<u32, MalformedIq>, Vec<f32>) {
    let seven = Complex32::new(7.0, 7.0);
    let mut v = vec![seven];
    let r = parse_iq_datagram(p, &mut v);
    assert_eq!(v[0], seven);
    assert_eq!(v.len(), if r.is_ok() { 239 } else { 1 });
    let flat = v[1..].iter().flat_map(|c| [c.re, c.im]).collect();
    (r, flat)
}

fn header(r: Result<u32, MalformedIq>) -> Ran {
    match r {
        Ok(n) => Number(n as u64),
        Err(MalformedIq::Length(_)) => Word("r:7".into()),
        Err(MalformedIq::BitsPerSample(_)) => Word("r:8".into()),
        Err(MalformedIq::SamplesPerFrame(_)) => Word("r:9".into()),
    }
}

fn value(r: Result<u32, MalformedIq>) -> Ran {
    Number(match r {
        Ok(n) => n as u64,
        Err(MalformedIq::Length(n)) => n as u64,
        Err(MalformedIq::BitsPerSample(v) | MalformedIq::SamplesPerFrame(v)) => v as u64,
    })
}

fn sample(place: u64, p: &[u8]) -> Ran {
    let (r, flat) = parsed(p);
    if r.is_err() {
        return header(r);
    }
    match flat.get(place as usize) {
        Some(x) => Number(x.to_bits() as u64),
        None => Skipped("the rest of a lent output: the Rust appends to a Vec"),
    }
}

fn room(places: u64, p: &[u8]) -> Ran {
    match parsed(p).0 {
        Ok(_) if places < 476 => Skipped("16, an output below 476 f32: the Rust appends to a Vec"),
        r => header(r),
    }
}

/// The writers in the order of the cases' table.
fn left(which: u64, p: &[u8]) -> Ran {
    let board = given(1, 1);
    match which {
        0 => lent(&general_packet(0, &board), p),
        1 => lent(&rx_specific_packet(0, &board, 48), p),
        2 => lent(&tx_specific_packet(0), p),
        _ => lent(&high_priority_packet(0, false, 0, 0, 0, 0), p),
    }
}

/// A place of an output that was lent; what the Rust appends is compared where it was written.
fn kept(places: u64, place: u64, p: &[u8]) -> Ran {
    match parsed(p).0 {
        Ok(_) if places >= 476 => sample(place, p),
        _ => Skipped("what a refusal leaves of a lent output: the Rust appends to a Vec"),
    }
}

pub fn run(name: &str, a: &[u64], p: &[u8]) -> Option<Ran> {
    let double = |i: usize| f64::from_bits(a[i]);
    Some(match name {
        "phase_word" => Number(phase_word(double(0)) as u64),
        "rate_khz" => option(rate_khz(double(0)).map(u64::from), "r:3"),
        "is_rate_khz" => Number((rate_khz(a[0] as f64 * 1000.0) == Some(a[0] as u16)) as u64),
        "alex0" => Number(alex_words(scheme(a[0]), double(1)).0 as u64),
        "alex1" => Number(alex_words(scheme(a[0]), double(1)).1 as u64),
        "board_adcs" => Number(board(a[0]).adc_count as u64),
        "board_enable" => Number(board(a[0]).filter_enable as u64),
        "board_scheme" => option((0..5).find(|&k| scheme(k) == board(a[0]).scheme), "?"),
        // as the Rust's session tests it
        "adc0_overload" => Number((a[0] as u8 & ADC0_OVERLOAD != 0) as u64),
        "observe_event" | "observe_gap" | "observe_expected" | "observe_run" => observe(name, a),
        "general_packet" => lent(&general_packet(a[0] as u32, &given(a[1], a[2])), p),
        "rx_specific_packet" => lent(
            &rx_specific_packet(a[0] as u32, &given(a[1], a[2]), a[3] as u16),
            p,
        ),
        "tx_specific_packet" => lent(&tx_specific_packet(a[0] as u32), p),
        "high_priority_packet" => lent(
            &high_priority_packet(
                a[0] as u32,
                a[1] == 1,
                a[2] as u32,
                a[3] as u32,
                a[4] as u32,
                a[5] as u8,
            ),
            p,
        ),
        "refused_left" => left(a[0], p),
        "adc_overload_bits" => option(adc_overload_bits(p).map(u64::from), "none"),
        "iq_header" => header(parsed(p).0),
        "iq_value" => value(parsed(p).0),
        "iq_sample" => sample(a[0], p),
        "iq_room" => room(a[0], p),
        "iq_left" => kept(a[0], a[1], p),
        _ => return None,
    })
}
