//! Makes the calls of a read as the Rust asks for them, aiming at the edges of what it holds.
use crate::calls::call::{Call, Settings};
use crate::generate::arrivals::Kind;
use crate::generate::settings::{Theme, MS, S};
use crate::hpsdr::proto2::session::aims::{Limits, Seen};
use crate::random::Random;
use crate::script::{Feed, Stop};
use std::collections::VecDeque;

pub struct RandomFeed {
    pub random: Random,
    pub settings: Settings,
    pub theme: Theme,
    /// The reading of the last call, and how many calls are left to make.
    pub now: u64,
    pub left: u64,
    /// The session as it stood before the read, the reading of its Begin, and the length of its Take's buffer.
    pub seen: Seen,
    pub limits: Limits,
    pub begun: u64,
    pub places: usize,
    /// What was received ahead, and how many stale, malformed or overloaded ones are to come in a row.
    pub ahead: VecDeque<u32>,
    pub run: Option<(Kind, u64)>,
}

const EVERY: [u64; 3] = [800 * MS, 200 * MS, 100 * MS];

impl RandomFeed {
    fn waits_from(&self) -> u64 {
        self.seen.valid.max(self.seen.anchor.unwrap_or(self.begun))
    }

    /// The readings at which something falls due, of those that are still to come.
    fn dues(&self, arrival: bool) -> Vec<u64> {
        let s = &self.seen;
        let mut dues: Vec<u64> = (0..3).map(|i| s.clocks[i] + EVERY[i]).collect();
        if arrival {
            dues = vec![];
            dues.extend(s.overload.map(|t| t + 500 * MS));
            dues.extend(s.run.map(|t| t + 2 * S));
        } else if self.theme == Theme::Attenuation && self.run.is_none() {
            dues.extend(s.quiet.map(|t| t + 600 * S));
        }
        dues.retain(|t| *t > self.now);
        dues
    }

    /// The readings at which a read gives up.
    fn stalls(&self) -> Vec<u64> {
        let add = |d| self.waits_from().checked_add(d);
        let times = [self.settings.soft, self.settings.hard];
        times
            .into_iter()
            .filter_map(add)
            .filter(|t| *t > self.now && *t < 1 << 63)
            .collect()
    }

    fn step(&mut self, arrival: bool) -> u64 {
        let mut aims = self.dues(arrival);
        if self.theme == Theme::Stalls && !arrival || self.random.percent(3) {
            aims.extend(self.stalls());
        }
        let r = &mut self.random;
        self.now = match r.below(10) {
            0..=2 if !aims.is_empty() => {
                let aim = r.one_of(&aims);
                r.about(aim).max(self.now)
            }
            0..=3 => self.now,
            4 if arrival || self.theme != Theme::Attenuation => self.now + 1,
            5..=9 if self.theme == Theme::Attenuation && arrival => {
                self.now + r.from_to(200, 499) * MS
            }
            5 => self.now + r.from_to(1, 90) * MS,
            _ => self.now + r.below(3 * MS),
        };
        self.now
    }

    fn spend(&mut self) -> Result<(), Stop> {
        self.left = self.left.checked_sub(1).ok_or(Stop::Ended)?;
        Ok(())
    }
}

impl Feed for RandomFeed {
    fn pass(&mut self) -> Result<Call, Stop> {
        self.spend()?;
        let at = self.step(false);
        for (clock, every) in self.seen.clocks.iter_mut().zip(EVERY) {
            if at - *clock >= every {
                *clock = at;
            }
        }
        Ok(Call::Pass(at, None))
    }

    fn arrival(&mut self, ahead: Option<u32>) -> Result<Option<Call>, Stop> {
        self.spend()?;
        if let Some(n) = ahead {
            self.ahead.pop_front();
            self.step(true);
            return Ok(Some(Call::Arrival(self.iq(n))));
        }
        let kind = self.kind();
        if kind == Kind::Nothing {
            return Ok(None);
        }
        self.step(true);
        Ok(Some(Call::Arrival(self.arrive(kind))))
    }

    fn take(&mut self) -> Result<Call, Stop> {
        let ready = self.random.percent(30);
        self.now += self.random.one_of(&[0, 0, 1, 1000, MS]);
        Ok(match ready {
            true => Call::Pass(self.now, None),
            false => Call::Take(self.now, self.places),
        })
    }

    fn waiting(&mut self) -> Stop {
        unreachable!("the waiting numbers begin with those that were received ahead")
    }

    fn received(&mut self, ahead: &VecDeque<u32>) {
        self.ahead = ahead.clone();
    }
}
