//! The account of a session: what was told of each stretch, and in all.
use crate::calls::answer::{Answer, Event};
use crate::calls::call::{Arrival, Call, Datagram};
use std::fmt;

/// It begins with the first arrival, or with one told Restart.
#[derive(Debug, Clone)]
struct Stretch {
    /// Its first arrival's reading and number, and the missing that a Restart told there.
    at: u64,
    first: u32,
    restart: u64,
    /// The reading of the last accepted arrival.
    last: u64,
    /// The highest number, counted on from the first past 2^32.
    highest: u64,
    samples: u64,
    /// Told after its first arrival.
    missing: u64,
}

/// A gap: in which stretch, from 1, after which number, counted as the stretch's highest is, and how much is missing.
#[derive(Debug, Clone, PartialEq)]
pub struct Gap {
    stretch: usize,
    after: u64,
    datagrams: u32,
    samples: u64,
}

#[derive(Debug, Clone, Default)]
pub struct Account {
    stretches: Vec<Stretch>,
    /// The datagrams of all gaps.
    lost: u64,
    handed: u64,
    waiting: u64,
    counts: [u64; 3],
}

/// A number of I/Q: of the datagram that a list makes from one, or the first four octets.
fn number(d: &Datagram) -> u32 {
    u32::from_be_bytes(d.octets()[..4].try_into().unwrap())
}

impl Account {
    /// An accepted arrival with so many samples.
    fn accepted(&mut self, a: &Arrival, event: &Event, missing: u64, samples: u64) {
        let number = number(&a.datagram);
        match self.stretches.last_mut() {
            Some(s) if *event != Event::Restart => {
                s.highest += number.wrapping_sub(s.highest as u32) as u64;
                s.samples += samples;
                s.missing += missing;
                s.last = a.at;
            }
            _ => self.stretches.push(Stretch {
                at: a.at,
                first: number,
                restart: missing,
                last: a.at,
                highest: number as u64,
                samples,
                missing: 0,
            }),
        }
    }

    /// The gap before an arrival that is not accounted yet.
    fn gap(&self, a: &Arrival, missing: u64) -> Option<Gap> {
        let after = self.stretches.last()?.highest;
        Some(Gap {
            stretch: self.stretches.len(),
            after,
            datagrams: number(&a.datagram)
                .wrapping_sub(after as u32)
                .wrapping_sub(1),
            samples: missing,
        })
    }

    /// A call and its answer; `samples` are those of a datagram that was accepted. A gap is given back.
    pub fn told(&mut self, call: &Call, answer: &Answer, samples: u64) -> Option<Gap> {
        let mut gap = None;
        match (call, answer) {
            (Call::Arrival(_), Answer::Iq(Event::Stale, _)) => {}
            (Call::Arrival(a), Answer::Iq(event, missing)) => {
                if *event == Event::Gap {
                    gap = self.gap(a, *missing);
                }
                self.lost += gap.as_ref().map_or(0, |g| g.datagrams as u64);
                self.accepted(a, event, *missing, samples);
            }
            (Call::Take(..), Answer::Took(pairs, _)) => self.handed += *pairs as u64,
            _ => {}
        }
        gap
    }

    pub fn stretches(&self) -> usize {
        self.stretches.len()
    }

    /// Demand 3's two sums: in each stretch, and of what was handed out and what waits. And the gaps' datagrams are those
    /// that the session counted as dropped.
    pub fn adds_up(&self) -> bool {
        let even = |s: &Stretch| s.samples + s.missing == 238 * (s.highest - s.first as u64 + 1);
        let samples: u64 = self.stretches.iter().map(|s| s.samples).sum();
        self.stretches.iter().all(even)
            && samples == self.handed + self.waiting
            && self.lost == self.counts[0]
    }

    /// What the session holds at its end.
    pub fn end(&mut self, waiting: u64, counts: [u64; 3]) {
        self.waiting = waiting;
        self.counts = counts;
    }
}

impl fmt::Display for Gap {
    fn fmt(&self, f: &mut fmt::Formatter<'_>) -> fmt::Result {
        let Self {
            stretch,
            after,
            datagrams,
            samples,
        } = self;
        write!(
            f,
            "gap stretch {stretch} after {after} datagrams {datagrams} samples {samples}"
        )
    }
}

impl fmt::Display for Stretch {
    fn fmt(&self, f: &mut fmt::Formatter<'_>) -> fmt::Result {
        write!(
            f,
            "at {} last {} first {} highest {} samples {} missing {} restart {}",
            self.at, self.last, self.first, self.highest, self.samples, self.missing, self.restart
        )
    }
}

impl fmt::Display for Account {
    fn fmt(&self, f: &mut fmt::Formatter<'_>) -> fmt::Result {
        for (i, s) in self.stretches.iter().enumerate() {
            writeln!(f, "stretch {} {s}", i + 1)?;
        }
        let sum = |of: fn(&Stretch) -> u64| self.stretches.iter().map(of).sum::<u64>();
        writeln!(
            f,
            "total stretches {} samples {} missing {} restart {} handed {} waiting {}",
            self.stretches.len(),
            sum(|s| s.samples),
            sum(|s| s.missing),
            sum(|s| s.restart),
            self.handed,
            self.waiting
        )?;
        let [dropped, gaps, malformed] = self.counts;
        let loss = dropped.wrapping_mul(238);
        writeln!(
            f,
            "counters dropped {dropped} gaps {gaps} malformed {malformed} loss {loss}"
        )
    }
}
