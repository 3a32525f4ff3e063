//! The rates that the Rust accepts. Its own `rate_khz` is asked, so that no list of them stands here beside its own.
use crate::hpsdr::proto2::wire::rate_khz;
use std::sync::OnceLock;

pub fn is_accepted(khz: u16) -> bool {
    rate_khz(f64::from(khz) * 1000.0) == Some(khz)
}

/// In kHz, rising.
pub fn khz() -> &'static [u16] {
    static RATES: OnceLock<Vec<u16>> = OnceLock::new();
    RATES.get_or_init(|| (0..=u16::MAX).filter(|&khz| is_accepted(khz)).collect())
}

/// In Hz, rising.
pub fn hz() -> Vec<f64> {
    khz().iter().map(|&khz| f64::from(khz) * 1000.0).collect()
}
