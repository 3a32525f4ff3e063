//! A session of the Rust's: this module stands inside manta's proto2 (build.rs), where it sees the private fields.
use super::*;
use crate::calls::call::{Call, Settings};
use crate::script::{self, Feed, Made, Problem, Script, Stop};

pub mod aims;
pub mod arithmetic;
pub mod receiver;
pub mod state;

pub struct Session {
    source: Protocol2IqSource,
    settings: Settings,
    /// What the Rust's look-ahead holds, by number.
    ahead: VecDeque<u32>,
}

/// The Rust's own stall times, window and malformed limit.
pub const SOFT: u64 = SOFT_STALL_AFTER.as_nanos() as u64;
pub const HARD: u64 = STALL_AFTER.as_nanos() as u64;
pub const WINDOW: u64 = MAX_BUFFERED_DATAGRAMS;
pub const MALFORMED: u32 = MAX_CONSECUTIVE_MALFORMED;

/// How a read ended.
#[derive(Debug, Clone, PartialEq)]
pub enum End {
    /// With these samples.
    Took(Vec<f32>),
    Soft,
    Hard,
    MalformedLimit,
    /// It did not: the list ended.
    Open,
}

/// A read: how it ended, the calls that it made, and what it added to the two slots.
pub struct Read {
    pub end: End,
    pub made: Vec<Made>,
    /// It had samples to hand out at its end.
    pub handing: bool,
    pub missing: u64,
}

/// The number for what `validate_protocol2` says: 01's, and that of the test that a request adds (build.rs).
fn refusal(text: &str) -> u8 {
    const TEXTS: [(u8, &str); 7] = [
        (1, "supports exactly one DDC"),
        (2, "needs exactly one centre frequency"),
        (3, "only encodes exactly"),
        (4, "is not a positive whole number of Hz"),
        (5, "Nyquist limit"),
        (19, "request 2026-01: port 0"),
        (6, "leaves no room for the radio's port map"),
    ];
    let found = TEXTS.iter().find(|(_, part)| text.contains(part));
    found.unwrap_or_else(|| panic!("{text}")).0
}

/// Open and Close ask for no calls.
struct NoCalls;

impl Feed for NoCalls {
    fn pass(&mut self) -> Result<Call, Stop> {
        unreachable!()
    }
    fn arrival(&mut self, _: Option<u32>) -> Result<Option<Call>, Stop> {
        unreachable!()
    }
    fn take(&mut self) -> Result<Call, Stop> {
        unreachable!()
    }
    fn waiting(&mut self) -> Stop {
        unreachable!()
    }
}

fn alone<T>(s: &Settings, call: Call, body: impl FnOnce() -> T) -> (T, Vec<Made>) {
    let script = Script::new(Box::new(NoCalls), s, None);
    let ran = script::run(script, call, &mut VecDeque::new(), body).unwrap();
    (ran.value.unwrap(), ran.made)
}

fn config(s: &Settings) -> HpsdrConfig {
    let quiet = || Arc::new(AutoAttenuation::new(Box::new(|_| {})));
    HpsdrConfig {
        host: s.radio.to_string(),
        port: s.port,
        ddc_count: s.receivers as usize,
        sample_rate_hz: s.rate,
        center_freq_hz: vec![s.centre; s.centres as usize],
        auto_attenuation: (s.attenuation == Some(true)).then(quiet),
    }
}

/// The Rust's own constructor under a fixed clock; then the counts without its start packets, and what the caller gives.
pub fn open(s: &Settings) -> std::result::Result<Session, u8> {
    let body = || Protocol2IqSource::open(&config(s), wire::board_info(s.board));
    let (opened, _) = alone(s, Call::Open(s.clone()), body);
    let mut source = opened.map_err(|e| refusal(&e.to_string()))?;
    source.seq = [0; 4];
    source.stall = StallEpisode::new(Duration::from_nanos(s.soft));
    source.stall_after = Duration::from_nanos(s.hard);
    source.park_window = s.window;
    source.max_consecutive_malformed = s.malformed;
    Ok(Session {
        source,
        settings: s.clone(),
        ahead: VecDeque::new(),
    })
}

/// The two ways in which `read` gives up.
fn failed(e: anyhow::Error) -> End {
    assert!(crate::stall::is_no_usable_samples(&e), "{e}");
    let text = e.to_string();
    match text.contains("no IQ datagram for") {
        true => End::Hard,
        false => {
            assert!(text.contains("consecutive malformed datagrams"), "{text}");
            End::MalformedLimit
        }
    }
}

impl Session {
    fn pending(&self) -> u64 {
        let slots = [
            self.source.pending_missing,
            self.source.pending_discontinuity,
        ];
        slots.iter().flatten().sum()
    }

    /// One read into room for so many pairs, from Begin on.
    pub fn read(
        &mut self,
        feed: impl Feed + 'static,
        at: u64,
        pairs: usize,
    ) -> Result<Read, Problem> {
        let before = self.pending();
        let mut buf = vec![Complex32::new(0.0, 0.0); pairs];
        let counters = self.source.health_counters.clone();
        let script = Script::new(Box::new(feed), &self.settings, Some(counters));
        let source = &mut self.source;
        let ran = script::run(script, Call::Begin(at), &mut self.ahead, || {
            source.read(&mut buf)
        })?;
        let end = match ran.value {
            None => End::Open,
            Some(Ok(0)) => End::Soft,
            Some(Ok(n)) => End::Took(buf[..n].iter().flat_map(|c| [c.re, c.im]).collect()),
            Some(Err(e)) => failed(e),
        };
        if end == End::Open {
            self.left_open(ran.handing, pairs);
        }
        Ok(Read {
            end,
            made: ran.made,
            handing: ran.handing,
            missing: self.pending() - before,
        })
    }

    /// The list ended in a read. What waits is what the calls before left: the Rust moves its place in the queue before it
    /// asks for Take's reading, and puts the next datagram's samples there before it asks for that one's.
    fn left_open(&mut self, handing: bool, pairs: usize) {
        if handing {
            assert_eq!(pairs, 1);
            self.source.queue_pos -= 1;
        } else {
            self.source.queue.clear();
            self.source.queue_pos = 0;
        }
    }

    pub fn take_missing_samples(&mut self) -> Option<u64> {
        self.source.take_missing_samples()
    }

    pub fn take_discontinuity(&mut self) -> Option<u64> {
        self.source.take_discontinuity()
    }

    pub fn take_stalled(&mut self) -> bool {
        self.source.take_stalled()
    }

    pub fn settings(&self) -> &Settings {
        &self.settings
    }

    /// Dropped, gaps and malformed.
    pub fn counts(&self) -> [u64; 3] {
        let g = self.source.gap_stats();
        [g.dropped_packets, g.gaps_detected, g.malformed_packets]
    }

    /// The samples of the datagram that was accepted last, and how many of them wait.
    pub fn queue(&self) -> (u64, u64) {
        let q = self.source.queue.len();
        (q as u64, (q - self.source.queue_pos) as u64)
    }

    /// Close: manta's Drop.
    pub fn close(self, call: Call) -> Vec<Made> {
        let Self {
            source, settings, ..
        } = self;
        alone(&settings, call, || drop(source)).1
    }
}
