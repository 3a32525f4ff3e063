//! Settings to open a session with: accepted ones for each kind of list, and ones that are refused.
use crate::calls::call::Settings;
use crate::random::Random;
use crate::rates;
use std::net::Ipv4Addr;

pub const MS: u64 = 1_000_000;
pub const S: u64 = 1000 * MS;
const NEVER: u64 = 100_000 * S;

/// What a session's calls are mostly about.
#[derive(Debug, Clone, Copy, PartialEq, Eq)]
pub enum Theme {
    Stream,
    Pauses,
    Stalls,
    Attenuation,
    Floods,
}

pub const THEMES: [Theme; 5] = [
    Theme::Stream,
    Theme::Pauses,
    Theme::Stalls,
    Theme::Attenuation,
    Theme::Floods,
];

/// The limits of the three filter ladders, and what 01 says of centres.
const CENTRES: [u64; 17] = [
    1, 1_499_999, 1_500_000, 2_000_000, 2_500_000, 4_000_000, 5_500_000, 6_500_000, 7_000_000,
    8_000_000, 8_000_001, 9_500_000, 13_000_000, 16_500_000, 32_000_000, 50_000_000, 61_439_999,
];

fn centre(r: &mut Random) -> f64 {
    match r.percent(70) {
        true => r.one_of(&CENTRES) as f64,
        false => r.from_to(1, 61_439_999) as f64,
    }
}

/// Soft and hard stall times.
fn stalls(r: &mut Random, theme: Theme) -> (u64, u64) {
    const TIMES: [u64; 8] = [
        0,
        1,
        5 * MS,
        100 * MS,
        250 * MS,
        4500 * MS,
        10 * S,
        u64::MAX,
    ];
    match theme {
        Theme::Stalls => match r.below(4) {
            0 => (r.one_of(&TIMES), r.one_of(&TIMES)),
            1 => {
                let soft = r.one_of(&TIMES[1..7]);
                (soft, r.about(soft))
            }
            _ => (r.from_to(1, 300) * MS, r.from_to(300, 2000) * MS),
        },
        Theme::Attenuation => (NEVER, r.one_of(&[NEVER, 2 * NEVER])),
        _ => r.one_of(&[(4500 * MS, 10 * S), (NEVER, NEVER), (4500 * MS, NEVER)]),
    }
}

fn window(r: &mut Random, theme: Theme) -> u64 {
    match theme {
        Theme::Pauses => r.one_of(&[0, 1, 2, 3, 5, 8, 8192, u64::MAX]),
        _ => r.one_of(&[0, 1, 4, 8192, 8192]),
    }
}

/// Settings that are accepted.
pub fn accepted(r: &mut Random, theme: Theme) -> Settings {
    let (soft, hard) = stalls(r, theme);
    let attenuation = match theme {
        Theme::Attenuation => Some(true),
        _ => r.one_of(&[None, Some(false), Some(true)]),
    };
    let board = match r.percent(5) {
        true => None,
        false => Some(r.one_of(&[0, 1, 2, 3, 4, 5, 6, 7, 9, 10, 11, 12, 19, 20, 21, 255])),
    };
    Settings {
        at: r.one_of(&[0, 0, 1, 5 * S, 1 << 40, 1 << 62]),
        rate: r.one_of(&rates::hz()),
        centre: centre(r),
        port: r.one_of(&[1024, 1024, 1, 65524, 50000]),
        radio: Ipv4Addr::from(r.one_of(&[0x0a00_0002, 0, 0x7f00_0001, 0xffff_ffff, 0xc0a8_0109])),
        board,
        attenuation,
        soft,
        hard,
        window: window(r, theme),
        malformed: match theme {
            Theme::Floods => r.one_of(&[0, 1, 2, 3, 7]),
            _ => r.one_of(&[0, 2, 1000, 10_000, u32::MAX]),
        },
        ..Settings::default()
    }
}

fn beside(x: f64, by: i64) -> f64 {
    f64::from_bits(x.to_bits().wrapping_add_signed(by))
}

fn any_rate(r: &mut Random) -> f64 {
    let rate = r.one_of(&rates::hz());
    let others = [
        47999.0,
        f64::NAN,
        f64::INFINITY,
        -rate,
        0.0,
        rate / 2.0,
        rate * 2.0,
        rate * 3.0,
    ];
    match r.percent(30) {
        true => beside(rate, r.one_of(&[1, -1])),
        false => r.one_of(&others),
    }
}

fn any_centre(r: &mut Random) -> f64 {
    r.one_of(&[
        -0.0,
        0.0,
        0.5,
        7_000_000.5,
        -1.0,
        f64::NAN,
        f64::INFINITY,
        f64::NEG_INFINITY,
        f64::MIN_POSITIVE,
        61_439_999.0,
        beside(61_440_000.0, -1),
        61_440_000.0,
        61_440_001.0,
        1e300,
    ])
}

/// Settings of which each is wrong now and then, or just not.
pub fn any(r: &mut Random) -> Settings {
    let mut s = accepted(r, Theme::Stream);
    if r.percent(20) {
        s.receivers = r.one_of(&[0, 2, 65535]);
    }
    if r.percent(20) {
        s.centres = r.one_of(&[0, 2]);
    }
    if r.percent(30) {
        s.rate = any_rate(r);
    }
    if r.percent(30) {
        s.centre = any_centre(r);
    }
    if r.percent(50) {
        s.port = r.one_of(&[0, 1, 65524, 65525, 65535]);
    }
    s
}
