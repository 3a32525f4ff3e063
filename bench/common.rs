//! What the benchmarks share: datagrams to read, and a median.

/// n valid I/Q datagrams, numbered from 1, of pseudo-random samples.
pub fn datagrams(n: usize) -> Vec<[u8; 1444]> {
    let mut x: u64 = 0x9e37_79b9_7f4a_7c15;
    (0..n)
        .map(|n| {
            let mut b = [0u8; 1444];
            for o in b.iter_mut() {
                x ^= x << 13;
                x ^= x >> 7;
                x ^= x << 17;
                *o = (x >> 32) as u8;
            }
            b[..4].copy_from_slice(&(n as u32 + 1).to_be_bytes());
            b[12..14].copy_from_slice(&24u16.to_be_bytes());
            b[14..16].copy_from_slice(&238u16.to_be_bytes());
            b
        })
        .collect()
}

pub fn median(mut v: Vec<f64>) -> f64 {
    v.sort_by(|a, b| a.total_cmp(b));
    v[v.len() / 2]
}
