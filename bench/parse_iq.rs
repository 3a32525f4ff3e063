//! parse_iq_datagram, the Rust's and ours, on the same datagrams.
//! `parse_iq time` prints the median nanoseconds a call of each, measured in turns;
//! `parse_iq rust|ours|none N` makes N calls, for callgrind.
mod common;
#[allow(dead_code)]
mod wire;

use common::{datagrams, median};
use num_complex::Complex32;
use std::hint::black_box;
use std::time::Instant;

extern "C" {
    fn waluntig_parse(b: &[u8; 1444], out: &mut [f32; 476]) -> u32;
}

const DATAGRAMS: usize = 16;

fn rust(b: &[u8; 1444], out: &mut Vec<Complex32>) -> u32 {
    out.clear();
    wire::parse_iq_datagram(black_box(b), out).unwrap()
}

fn ours(b: &[u8; 1444], out: &mut [f32; 476]) -> u32 {
    unsafe { waluntig_parse(black_box(b), out) }
}

/// Both give the same count and the same bits, on every datagram.
fn same(ds: &[[u8; 1444]]) {
    let mut a = Vec::new();
    let mut b = [0f32; 476];
    for d in ds {
        assert_eq!(rust(d, &mut a), ours(d, &mut b));
        for (k, s) in a.iter().enumerate() {
            assert_eq!(s.re.to_bits(), b[2 * k].to_bits());
            assert_eq!(s.im.to_bits(), b[2 * k + 1].to_bits());
        }
    }
}

fn main() {
    let args: Vec<String> = std::env::args().collect();
    let ds = datagrams(DATAGRAMS);
    same(&ds);
    let mut a = Vec::with_capacity(238);
    let mut b = [0f32; 476];
    if args[1] == "time" {
        let (mut rs, mut os) = (Vec::new(), Vec::new());
        for _ in 0..401 {
            let t = Instant::now();
            for i in 0..4096 {
                black_box(rust(&ds[i % DATAGRAMS], &mut a));
                black_box(&mut a);
            }
            rs.push(t.elapsed().as_nanos() as f64 / 4096.0);
            let t = Instant::now();
            for i in 0..4096 {
                black_box(ours(&ds[i % DATAGRAMS], &mut b));
                black_box(&mut b);
            }
            os.push(t.elapsed().as_nanos() as f64 / 4096.0);
        }
        let (r, o) = (median(rs), median(os));
        println!("ns a call: Rust {r:.1}, ours {o:.1}, ratio {:.2}", o / r);
        return;
    }
    let n: usize = args[2].parse().unwrap();
    for i in 0..n {
        let d = &ds[i % DATAGRAMS];
        match args[1].as_str() {
            "rust" => {
                black_box(rust(d, &mut a));
                black_box(&mut a);
            }
            "ours" => {
                black_box(ours(d, &mut b));
                black_box(&mut b);
            }
            _ => {
                black_box(black_box(d));
            }
        }
    }
}
