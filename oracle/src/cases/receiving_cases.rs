//! A receiver's rules: elapsed time, a restart's outage, what an event misses and what a window uses, by manta's mod.rs.
use crate::cases::ran::{word, Ran, Ran::*};
use crate::hpsdr::proto2::session::arithmetic;
use crate::hpsdr::proto2::session::receiver::{self, Told};

/// Octets as numbers of eight.
fn numbers<const N: usize>(p: &[u8]) -> [u64; N] {
    std::array::from_fn(|i| u64::from_be_bytes(p[8 * i..8 * i + 8].try_into().unwrap()))
}

fn octets(numbers: &[u64]) -> Ran {
    let p: Vec<u8> = numbers.iter().flat_map(|n| n.to_be_bytes()).collect();
    word(&p)
}

/// The numbers behind a window.
fn waiting(p: &[u8]) -> Vec<u32> {
    let number = |c: &[u8]| u32::from_be_bytes(c.try_into().unwrap());
    p[32..].chunks_exact(4).map(number).collect()
}

fn used(missing: u64, w: [u64; 4]) -> Ran {
    let k = missing / 238;
    if missing % 238 != 0 || k >= 1 << 31 {
        return Skipped("a window used by a missing that no gap has");
    }
    if w[2].checked_add(238 + missing).is_none() {
        return Skipped("an account past 2^64 - 1, where it stays: the Rust's sum overflows");
    }
    octets(&receiver::used(w, k as u32))
}

fn slots(s: [Option<u64>; 2]) -> [u64; 4] {
    let [a, b] = s.map(|s| s.map_or([0, 0], |n| [1, n]));
    [a[0], a[1], b[0], b[1]]
}

fn reported(a: &[u64], n: [u64; 8]) -> Ran {
    let (rate, k) = (f64::from_bits(a[0]), a[2]);
    if a[1] == 1 && (k >= 1 << 31 || k > arithmetic::jump_limit(a[3], rate)) {
        return Skipped("a gap over the jump limit, which the Rust tells as a restart");
    }
    let slot = |i: usize| (n[i] != 0).then_some(n[i + 1]);
    let given = Told {
        slots: [slot(0), slot(2)],
        counts: [n[4], n[5], n[6]],
    };
    let (told, missing) = receiver::reported(rate, a[1], k as u32, a[3], given);
    let s = slots(told.slots);
    let c = told.counts;
    octets(&[s[0], s[1], s[2], s[3], c[0], c[1], c[2], missing])
}

pub fn run(name: &str, a: &[u64], p: &[u8]) -> Option<Ran> {
    let rate = || f64::from_bits(a[0]);
    Some(match name {
        "unaccounted" => Number(receiver::unaccounted(rate(), a[1], numbers(p), a[2])),
        "restart_outage" => Number(receiver::outage(
            rate(),
            [a[1], a[2], a[3]],
            numbers(p),
            a[4] as u32,
            &waiting(p),
        )),
        "window_used" => used(a[0], numbers(p)),
        "report_event" => reported(a, numbers(p)),
        "capped" => Skipped("a gap's cap by itself: inside handle_iq, which report_event runs"),
        "window_begun" => {
            Skipped("a window's opening by itself: inside read(), which the lists run")
        }
        "destination" => Skipped("a stream's port by itself: inside send, which the lists run"),
        _ => return None,
    })
}
