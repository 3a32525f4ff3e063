//! Cycles of Begin, Pass, Arrival and Take, the Rust's `read()` and ours, on the same datagrams.
//! `session time` prints the least and the median milliseconds of a million cycles of each, measured in turns;
//! `session rust|ours order|gaps N` makes N cycles, for callgrind.
mod clock;
#[path = "../../common.rs"]
mod common;
#[path = "../../../oracle/src/local_bind.rs"]
mod local_bind;
mod socket;
#[path = "../../../oracle/src/socket2.rs"]
mod socket2;

include!(concat!(env!("OUT_DIR"), "/manta.rs"));

use std::hint::black_box;

extern "C" {
    fn waluntig_cycles(
        datagram: &mut [u8; 1444],
        packets: &mut [u8; 4452],
        samples: &mut [f32; 476],
        buffer: &mut [f32; 476],
        rate: f64,
        ip: u32,
        port: u16,
        n: u64,
        step: u32,
        every: u64,
    ) -> u64;
}

/// Samples a second, and a datagram's time in nanoseconds.
const RATE: u64 = 192_000;
const EVERY: u64 = 238 * 1_000_000_000 / RATE;

/// How far apart the numbers of two datagrams are.
const ORDER: u32 = 1;
const GAPS: u32 = 3;

fn datagram() -> [u8; 1444] {
    common::datagrams(1)[0]
}

/// What the cycles told, and the bits of the samples that the last one handed out.
fn rust(n: u64, step: u32) -> (u64, Vec<u32>) {
    let mut buffer = [Complex32::new(0.0, 0.0); 238];
    let every = EVERY * step as u64;
    let told = hpsdr::proto2::session::run(&datagram(), black_box(&mut buffer), n, step, every);
    let bits = |c: &Complex32| [c.re.to_bits(), c.im.to_bits()];
    (told, buffer.iter().flat_map(bits).collect())
}

fn ours(n: u64, step: u32) -> (u64, Vec<u32>) {
    let (mut packets, mut samples, mut buffer) = ([0; 4452], [0.0; 476], [0.0; 476]);
    let every = EVERY * step as u64;
    let told = unsafe {
        waluntig_cycles(
            &mut datagram(),
            &mut packets,
            &mut samples,
            black_box(&mut buffer),
            RATE as f64,
            u32::from_be_bytes([10, 0, 0, 2]),
            1024,
            n,
            step,
            every,
        )
    };
    black_box(&packets);
    (told, buffer.iter().map(|x| x.to_bits()).collect())
}

/// Nanoseconds a cycle, which are milliseconds a million.
fn nanoseconds(cycles: fn(u64, u32) -> (u64, Vec<u32>), step: u32) -> f64 {
    let n = 100_000;
    let start = std::time::Instant::now();
    black_box(cycles(n, step));
    start.elapsed().as_nanos() as f64 / n as f64
}

fn time(name: &str, step: u32) {
    let turn = |_| (nanoseconds(rust, step), nanoseconds(ours, step));
    let (r, o): (Vec<f64>, Vec<f64>) = (0..101).map(turn).unzip();
    let least = |v: &[f64]| v.iter().copied().fold(f64::INFINITY, f64::min);
    for (what, r, o) in [
        ("least", least(&r), least(&o)),
        ("median", common::median(r), common::median(o)),
    ] {
        println!(
            "ms a million cycles, {name}, {what}: Rust {r:.0}, ours {o:.0}, ratio {:.2}",
            o / r
        );
    }
}

fn main() {
    let args: Vec<String> = std::env::args().skip(1).collect();
    let args: Vec<&str> = args.iter().map(String::as_str).collect();
    for step in [ORDER, GAPS] {
        assert_eq!(rust(1000, step), ours(1000, step));
    }
    let step = |word| if word == "order" { ORDER } else { GAPS };
    match args[..] {
        ["time"] => {
            time("in order", ORDER);
            time("with gaps", GAPS);
        }
        ["rust", what, n] => drop(black_box(rust(n.parse().unwrap(), step(what)))),
        ["ours", what, n] => drop(black_box(ours(n.parse().unwrap(), step(what)))),
        _ => panic!("session time, or session rust|ours order|gaps N"),
    }
}
