//! The answers to a read's calls, from what the Rust did in them.
use crate::calls::call::{Call, Settings};
use crate::clock::Asker;
use crate::hpsdr::proto2::session::{End, Read};
use crate::script::Made;
use std::fmt;

#[derive(Debug, Clone, PartialEq)]
pub enum Event {
    InOrder,
    Gap,
    Stale,
    Restart,
}

/// Packets: the offset of each one's port, and the digest of their octets, one packet after the other.
#[derive(Debug, Clone, PartialEq)]
pub struct Sent {
    pub streams: Vec<u16>,
    pub digest: u32,
}

#[derive(Debug, Clone, PartialEq)]
pub enum Answer {
    Opened,
    Refused(u8),
    Begun,
    Ready,
    SoftStall,
    HardStall,
    Sent(Sent),
    Ignored,
    Status(Sent),
    Malformed,
    MalformedLimit,
    Iq(Event, u64),
    /// Pairs, and the digest of their f32.
    Took(usize, u32),
    Missing(Option<u64>),
    Discontinuity(Option<u64>),
    Stalled(bool),
    /// What a line asks for that is no call.
    Asked(String),
}

/// Adler-32 (RFC 1950).
pub fn digest(octets: impl IntoIterator<Item = u8>) -> u32 {
    let sums = |(a, b), octet: u8| {
        let a = (a + octet as u32) % 65521;
        (a, (b + a) % 65521)
    };
    let (a, b) = octets.into_iter().fold((1, 0), sums);
    b << 16 | a
}

pub fn sent(made: &Made, s: &Settings) -> Sent {
    Sent {
        streams: made.sent.iter().map(|(port, _)| port - s.port).collect(),
        digest: digest(
            made.sent
                .iter()
                .flat_map(|(_, packet)| packet.iter().copied()),
        ),
    }
}

/// A read's calls from the i-th on, what was counted before it, and the settings.
struct At<'a> {
    read: &'a Read,
    i: usize,
    before: [u64; 3],
    settings: &'a Settings,
}

impl At<'_> {
    fn made(&self) -> &Made {
        &self.read.made[self.i]
    }

    fn is_last(&self, end: End) -> bool {
        self.i + 1 == self.read.made.len() && self.read.end == end
    }

    /// How much the k-th counter rose in this call.
    fn rose(&self, k: usize) -> u64 {
        self.made().counts[k] - self.before[k]
    }

    fn pass(&self) -> Answer {
        if !self.made().asked(Asker::Soft) {
            Answer::Ready
        } else if self.is_last(End::Soft) {
            Answer::SoftStall
        } else if self.is_last(End::Hard) {
            Answer::HardStall
        } else {
            Answer::Sent(sent(self.made(), self.settings))
        }
    }

    /// The Rust went on to hand samples out, and did not look at its clocks again.
    fn accepted(&self) -> bool {
        let next = self.read.made.get(self.i + 1);
        next.map_or(self.read.handing, |m| !m.asked(Asker::Soft))
    }

    fn iq(&self) -> Answer {
        if !self.accepted() {
            return Answer::Iq(Event::Stale, 0);
        }
        let event = match (self.rose(0), self.rose(1)) {
            (0, 0) => Event::InOrder,
            (0, _) => Event::Restart,
            _ => Event::Gap,
        };
        Answer::Iq(event, self.read.missing)
    }

    fn arrival(&self) -> Answer {
        if self.rose(2) > 0 {
            match self.is_last(End::MalformedLimit) {
                true => Answer::MalformedLimit,
                false => Answer::Malformed,
            }
        } else if self.made().asked(Asker::Valid) {
            self.iq()
        } else if self.made().asked(Asker::Status) {
            Answer::Status(sent(self.made(), self.settings))
        } else {
            Answer::Ignored
        }
    }

    fn answer(&self) -> Answer {
        match (&self.made().call, &self.read.end) {
            (Call::Begin(_), _) => Answer::Begun,
            (Call::Pass(..), _) => self.pass(),
            (Call::Arrival(_), _) => self.arrival(),
            (Call::Take(..), End::Took(samples)) => {
                let octets = samples.iter().flat_map(|x| x.to_bits().to_be_bytes());
                Answer::Took(samples.len() / 2, digest(octets))
            }
            (call, end) => panic!("{call:?} in a read that ended with {end:?}"),
        }
    }
}

/// One for each call of the read, by what each counter was at before it.
pub fn answers(read: &Read, mut before: [u64; 3], settings: &Settings) -> Vec<Answer> {
    let answer = |i: usize| {
        let at = At {
            read,
            i,
            before,
            settings,
        };
        let answer = at.answer();
        before = at.made().counts;
        answer
    };
    (0..read.made.len()).map(answer).collect()
}

impl fmt::Display for Sent {
    fn fmt(&self, f: &mut fmt::Formatter<'_>) -> fmt::Result {
        write!(f, "sent")?;
        for stream in &self.streams {
            write!(f, " {stream}")?;
        }
        write!(f, " digest {:08x}", self.digest)
    }
}

fn slot(f: &mut fmt::Formatter<'_>, name: &str, slot: Option<u64>) -> fmt::Result {
    match slot {
        Some(n) => write!(f, "{name} {n}"),
        None => write!(f, "{name} none"),
    }
}

impl fmt::Display for Answer {
    fn fmt(&self, f: &mut fmt::Formatter<'_>) -> fmt::Result {
        match self {
            Answer::Opened => write!(f, "opened"),
            Answer::Refused(number) => write!(f, "refused {number}"),
            Answer::Begun => write!(f, "begun"),
            Answer::Ready => write!(f, "ready"),
            Answer::SoftStall => write!(f, "soft stall"),
            Answer::HardStall => write!(f, "hard stall"),
            Answer::Sent(sent) if sent.streams.is_empty() => write!(f, "sent none"),
            Answer::Sent(sent) => write!(f, "{sent}"),
            Answer::Ignored => write!(f, "ignored"),
            Answer::Status(sent) if sent.streams.is_empty() => write!(f, "status"),
            Answer::Status(sent) => write!(f, "status {sent}"),
            Answer::Malformed => write!(f, "malformed"),
            Answer::MalformedLimit => write!(f, "malformed limit"),
            Answer::Iq(Event::InOrder, missing) => write!(f, "in order {missing}"),
            Answer::Iq(Event::Gap, missing) => write!(f, "gap {missing}"),
            Answer::Iq(Event::Stale, missing) => write!(f, "stale {missing}"),
            Answer::Iq(Event::Restart, missing) => write!(f, "restart {missing}"),
            Answer::Took(pairs, digest) => write!(f, "took {pairs} digest {digest:08x}"),
            Answer::Missing(n) => slot(f, "missing", *n),
            Answer::Discontinuity(n) => slot(f, "discontinuity", *n),
            Answer::Stalled(stalled) => {
                write!(f, "stalled {}", if *stalled { "yes" } else { "no" })
            }
            Answer::Asked(text) => write!(f, "{text}"),
        }
    }
}
