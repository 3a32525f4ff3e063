//! What a generator of calls aims at.
use super::*;

/// A session's expected number and clocks.
pub struct Seen {
    pub expected: Option<u32>,
    pub valid: u64,
    pub taken: u64,
    pub anchor: Option<u64>,
    /// General, receive and transmit, high priority.
    pub clocks: [u64; 3],
    pub overload: Option<u64>,
    pub run: Option<u64>,
    pub quiet: Option<u64>,
}

pub fn seen(s: &Session) -> Seen {
    let s = &s.source;
    let number = |text: String| text.parse::<u64>().ok();
    let time = |name| {
        s.attenuation
            .as_ref()
            .and_then(|a| number(state::field(&a.controller, name)))
    };
    Seen {
        expected: number(state::field(&s.tracker, "expected")).map(|e| e as u32),
        valid: s.last_valid_iq.reading(),
        taken: s.read_returned.reading(),
        anchor: s.wait_entered.map(Instant::reading),
        clocks: [s.last_general, s.last_rx_tx_specific, s.last_high_priority].map(Instant::reading),
        overload: time("last_overload"),
        run: time("run_start"),
        quiet: time("quiet_since"),
    }
}

/// The Rust's own judgement of a gap, in a session that is kept beside the one that runs.
pub struct Limits(Session);

impl Limits {
    pub fn new(s: &Settings) -> Self {
        Self(open(s).unwrap_or_else(|n| panic!("refused {n}")))
    }

    /// As the other session stands when a read begins.
    pub fn follow(&mut self, s: &Session, begin: u64) {
        let mine = &mut self.0.source;
        mine.last_accepted_iq = s.source.last_accepted_iq;
        mine.parked = s.source.parked;
        let from = s.source.read_returned;
        if mine.parked.is_none() && Instant::at(begin).duration_since(from) >= PARKED_AFTER {
            let left = s.source.park_window;
            mine.parked = Some(Parked {
                from,
                accounted: 0,
                left,
            });
        }
    }

    /// The most datagrams that can have been lost before an arrival.
    pub fn limit(&self, at: u64) -> u64 {
        let source = &self.0.source;
        plausible_lost_datagrams(source.unaccounted(Instant::at(at)), source.sample_rate_hz)
    }

    /// In a window, the time that a restart which arrived at a reading is judged by at a later one, less nothing waiting.
    fn bound(&mut self, at: u64, later: u64) -> Duration {
        let source = &mut self.0.source;
        let last = std::mem::replace(&mut source.last_accepted_iq, Instant::at(at));
        let bound = source.unaccounted(Instant::at(later));
        source.last_accepted_iq = last;
        bound
    }

    /// The most datagrams that a walk over the numbers waiting behind it takes as lost at once.
    pub fn walk_limit(&mut self, at: u64, later: u64) -> u64 {
        let bound = self.bound(at, later);
        plausible_lost_datagrams(bound, self.0.source.sample_rate_hz)
    }

    /// The first later reading at which that time has a further half sample.
    pub fn half_sample(&mut self, at: u64) -> u64 {
        let rate = self.0.source.sample_rate_hz;
        let bound = self.bound(at, at).as_nanos() as u64;
        let samples = (bound as f64 / 1e9 * rate).ceil() + 0.5;
        at + ((samples / rate * 1e9).ceil() as u64).saturating_sub(bound)
    }
}
