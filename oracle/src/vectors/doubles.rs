//! Functions of doubles: edges, and the doubles beside them.
use super::Page;
use crate::cases;
use crate::random::Random;
use crate::rates;

/// The patterns of x and of so many doubles on either side.
fn beside(x: f64, doubles: i64) -> impl Iterator<Item = u64> {
    (-doubles..=doubles).map(move |k| x.to_bits().wrapping_add_signed(k))
}

/// A case of each pattern. The numbers that stand before it come with the name.
fn given(page: &mut Page, name: &str, patterns: impl IntoIterator<Item = u64>) {
    for b in patterns {
        page.case(format!("{name} 0x{b:016x}"));
    }
}

const CENTRES: u64 = 61_439_999;

pub fn phase_words(page: &mut Page, draw: &mut Random) {
    page.title("phase_word: centres from 1 to 61,439,999 Hz, some with the doubles beside them");
    for i in 0..33 {
        let any = draw.below(CENTRES);
        let small = draw.sized(26) % CENTRES;
        given(page, "phase_word", beside(1.0 + any as f64, i % 3 / 2));
        given(page, "phase_word", beside(1.0 + small as f64, i % 3 / 2));
    }
    page.title("phase_word: multiples of 1875 Hz, whose words are whole, and the doubles beside");
    for _ in 0..13 {
        let f = 1875 * (1 + draw.below(CENTRES / 1875));
        given(page, "phase_word", beside(f as f64, 1));
    }
    page.title("phase_word: about 1, half the clock, the clock and 2^53, and any doubles");
    for x in [1.0, 61_440_000.0, 122_880_000.0, 9_007_199_254_740_992.0] {
        given(page, "phase_word", beside(x, 2));
    }
    given(page, "phase_word", (0..8).map(|_| draw.any()));
}

pub fn rates(page: &mut Page, draw: &mut Random) {
    page.title("rate_khz: the accepted rates, the doubles beside them, and other rates");
    let rates = rates::hz();
    let [lowest, .., highest] = rates[..] else {
        panic!("two rates are accepted at least");
    };
    for &rate in &rates {
        given(page, "rate_khz", beside(rate, 2));
    }
    for rate in [lowest / 2.0, 2.0 * highest] {
        given(page, "rate_khz", beside(rate, 1));
    }
    for rate in [0.0, 48.0, 384.0, 4.0 * highest, -highest, -lowest / 2.0] {
        given(page, "rate_khz", beside(rate, 0));
    }
    for _ in 0..6 {
        given(page, "rate_khz", beside(draw.below(400_000) as f64, 0));
    }
}

const HIGH_PASS: [f64; 6] = [1.8e6, 6.5e6, 9.5e6, 13e6, 20e6, 50e6];
const LOW_PASS: [f64; 6] = [35.6e6, 24e6, 16.5e6, 8e6, 5e6, 2.5e6];
const BAND_PASS: [f64; 6] = [1.5e6, 2.1e6, 5.5e6, 11e6, 22e6, 35e6];

fn alex(page: &mut Page, scheme: usize, x: f64, doubles: i64) {
    for word in ["alex0", "alex1"] {
        given(page, &format!("{word} {scheme}"), beside(x, doubles));
    }
}

pub fn alex_words(page: &mut Page, draw: &mut Random) {
    for (scheme, first) in [(1, HIGH_PASS), (2, BAND_PASS), (3, BAND_PASS)] {
        page.title(&format!(
            "Alex words of scheme {scheme}: its two ladders' limits, and the doubles beside them"
        ));
        for limit in first.into_iter().chain(LOW_PASS) {
            alex(page, scheme, limit, 1);
        }
    }
    page.title("Alex words of every scheme: centres, and any doubles");
    for scheme in 0..5 {
        for _ in 0..4 {
            alex(page, scheme, 1.0 + draw.below(CENTRES) as f64, 0);
        }
        alex(page, scheme, f64::from_bits(draw.any()), 0);
    }
}

fn limit_of(ns: u64, rate: f64) -> String {
    format!("jump_limit {ns} 0x{:016x}", rate.to_bits())
}

/// The first time after this one at which the limit is another: at these rates it is so within 10 ms.
fn step(from: u64, rate: f64) -> u64 {
    let limit = |ns| cases::answer(&limit_of(ns, rate));
    let (mut same, mut other) = (from, from + 10_000_000);
    assert_ne!(limit(same), limit(other));
    while other - same > 1 {
        let middle = same + (other - same) / 2;
        match limit(middle) == limit(from) {
            true => same = middle,
            false => other = middle,
        }
    }
    other
}

pub fn jump_limits(page: &mut Page, draw: &mut Random) {
    page.title("jump_limit: on either side of steps, and the longest time");
    for rate in rates::hz() {
        for digits in [24, 27, 30, 34, 38, 42, 46, 50, 57, 64, 64] {
            let ns = (draw.any() >> (64 - digits)).min(u64::MAX - 20_000_000);
            let step = step(ns, rate);
            page.case(limit_of(step - 1, rate));
            page.case(limit_of(step, rate));
        }
        page.case(limit_of(step(u64::MAX - 10_000_000, rate), rate));
        page.case(limit_of(u64::MAX, rate));
    }
}

pub fn nanoseconds(page: &mut Page, draw: &mut Random) {
    page.title("nanoseconds: halves of one, in odd numbers of 1/1024 s, and the doubles beside");
    for _ in 0..16 {
        let odd = draw.sized(44) | 1;
        given(page, "nanoseconds", beside(odd as f64 / 1024.0, 1));
    }
    page.title("nanoseconds: the doubles about other halves and about 2^64 ns, and any others");
    for _ in 0..8 {
        let halves = draw.sized(40) | 1;
        given(page, "nanoseconds", beside(halves as f64 / 2e9, 1));
    }
    given(page, "nanoseconds", beside(18_446_744_073.709_552, 3));
    let any = |exponent: u64| (exponent << 52) + (draw.any() >> 12);
    let patterns: Vec<u64> = (1023 - 32..1023 + 34).step_by(3).map(any).collect();
    given(page, "nanoseconds", patterns);
}
