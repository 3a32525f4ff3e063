//! What arrives: kinds of datagrams, and the numbers of I/Q about the edges.
use crate::calls::call::{Arrival, Datagram, Iq, Waiting};
use crate::generate::feed::RandomFeed;
use crate::generate::settings::{Theme, MS, S};

#[derive(Debug, Clone, Copy, PartialEq, Eq)]
pub enum Kind {
    Nothing,
    InOrder,
    Gap,
    HalfRate,
    Limit,
    Stale,
    Restart,
    Zero,
    Malformed,
    Ignored,
    Status,
    Overload,
}
use Kind::*;

const KINDS: [Kind; 12] = [
    Nothing, InOrder, Gap, HalfRate, Limit, Stale, Restart, Zero, Malformed, Ignored, Status,
    Overload,
];

/// How often each kind comes.
fn weights(theme: Theme) -> [u64; 12] {
    match theme {
        Theme::Stream => [8, 30, 12, 7, 12, 9, 6, 3, 5, 3, 3, 2],
        Theme::Pauses => [6, 30, 8, 2, 8, 6, 26, 6, 3, 2, 2, 1],
        Theme::Stalls => [30, 25, 5, 1, 2, 6, 3, 1, 8, 8, 9, 2],
        Theme::Attenuation => [12, 8, 2, 1, 1, 2, 1, 1, 2, 3, 17, 50],
        Theme::Floods => [6, 18, 3, 1, 2, 9, 2, 1, 45, 7, 4, 2],
    }
}

/// Numbers as ranges, those that follow each other together.
fn ranges(numbers: impl IntoIterator<Item = u32>) -> Waiting {
    let mut ranges: Vec<(u32, u32)> = vec![];
    for n in numbers {
        match ranges.last_mut() {
            Some((_, last)) if last.checked_add(1) == Some(n) => *last = n,
            _ => ranges.push((n, n)),
        }
    }
    Waiting(ranges)
}

impl RandomFeed {
    /// When an arrival of now is handled: in a window, about where a restart's missing rounds up, or a second later.
    fn later(&mut self) -> u64 {
        let at = self.now;
        if self.theme == Theme::Pauses && self.random.percent(30) {
            let half = self.limits.half_sample(at);
            return self.random.about(half).max(at);
        }
        let long = [0, 0, 0, 1, 1000, MS, 40 * MS, S];
        let choices = if self.theme == Theme::Pauses {
            &long
        } else {
            &long[..7]
        };
        at + self.random.one_of(choices)
    }

    /// An arrival now, handled then.
    fn made(&mut self, datagram: Datagram, waiting: Waiting, later: u64) -> Arrival {
        let at = self.now;
        self.now = later;
        Arrival {
            at,
            later,
            datagram,
            waiting,
            buffer: None,
        }
    }

    fn alone(&mut self, datagram: Datagram) -> Arrival {
        let later = self.later();
        self.made(datagram, Waiting::default(), later)
    }

    pub fn iq(&mut self, number: u32) -> Arrival {
        let later = self.later();
        let waiting = self.waiting(number, later);
        self.made(Datagram::Iq(Iq::valid(number)), waiting, later)
    }

    /// Numbers that may wait behind one, after those that were received ahead.
    fn waiting(&mut self, n: u32, later: u64) -> Waiting {
        let limit = self.limits.walk_limit(self.now, later);
        let ahead: Vec<u32> = self.ahead.iter().copied().collect();
        let r = &mut self.random;
        if ahead.is_empty() && r.percent(if self.theme == Theme::Pauses { 20 } else { 80 }) {
            return Waiting::default();
        }
        let next = |k: u64| n.wrapping_add(k as u32);
        let few = r.from_to(1, 12);
        let new: Vec<u32> = match r.below(13) {
            0..=2 => vec![],
            3..=5 => (1..=few).map(next).collect(),
            6 => (1..=few).chain(few + 4..few + 9).map(next).collect(),
            7 => [
                next(1),
                n,
                n.wrapping_sub(3),
                next(2),
                n.wrapping_sub(70),
                next(3),
            ]
            .into(),
            8 => [next(1), 0, 1, 2, next(2)].into(),
            9 => [next(1), next(1 << 30), next((1 << 30) + 1)].into(),
            // the walk's limit, where the number after this one is expected
            11 => [next(1 + limit + r.below(2)), next(1 << 29)].into(),
            10 => (0..few).map(|_| r.any() as u32).collect(),
            _ if r.percent(15) && ahead.is_empty() => (1..=8192).map(next).collect(),
            _ => (1..=r.from_to(50, 400)).map(next).collect(),
        };
        ranges(ahead.into_iter().chain(new).take(8192))
    }

    fn malformed(&mut self) -> Arrival {
        let s = &self.settings;
        let (radio, port) = (s.radio, s.port);
        let r = &mut self.random;
        let stray = |n: u32| Some(std::net::Ipv4Addr::from(u32::from(radio).wrapping_add(n)));
        let iq = Iq::valid(r.any() as u32);
        let datagram = match r.below(9) {
            0 => Datagram::Iq(Iq {
                length: r.one_of(&[0, 1, 1443, 1445, 2048]),
                ..iq
            }),
            1 => Datagram::Iq(Iq {
                bits: r.one_of(&[0, 16, 23, 25, 280]),
                ..iq
            }),
            2 => Datagram::Iq(Iq {
                samples: r.one_of(&[0, 237, 239, 494]),
                ..iq
            }),
            3 => Datagram::Any(stray(1), port + r.below(12) as u16, vec![1]),
            4 => Datagram::Any(None, port + 11, iq.octets()[..20].to_vec()),
            5 => Datagram::Any(
                Some(radio),
                port.saturating_add(r.from_to(12, 300) as u16),
                vec![],
            ),
            6 => Datagram::Any(Some(radio), r.below(port as u64) as u16, vec![2, 3]),
            7 => Datagram::Any(stray(1 << 24), port + 1, vec![0; 60]),
            _ => Datagram::Any(Some(radio), port + 11, vec![0; r.below(40) as usize]),
        };
        // of 65524 a port 12 above can't be written: it is then the I/Q port, and the datagram too short
        self.alone(datagram)
    }

    fn ignored(&mut self) -> Arrival {
        let (radio, port) = (Some(self.settings.radio), self.settings.port);
        let r = &mut self.random;
        let datagram = match r.below(4) {
            0 => Datagram::Any(radio, port + 1, vec![255; r.one_of(&[0, 5, 59, 61])]),
            1 => Datagram::Any(radio, port, vec![0; 60]),
            _ => Datagram::Any(
                radio,
                port + r.from_to(2, 10) as u16,
                vec![7; r.below(9) as usize],
            ),
        };
        self.alone(datagram)
    }

    fn status(&mut self) -> Arrival {
        let octet = self.random.one_of(&[0, 0, 2, 254]);
        self.alone(Datagram::Status(octet))
    }

    /// The times that it moves are aimed at next.
    fn overload(&mut self) -> Arrival {
        let (at, s) = (self.now, &mut self.seen);
        if s.overload.is_none_or(|last| at - last > 500 * MS) {
            s.run = Some(at);
        }
        s.overload = Some(at);
        s.quiet = Some(at);
        let octet = self.random.one_of(&[1, 1, 3, 255]);
        self.alone(Datagram::Status(octet))
    }

    /// The number of an arrival of a kind, where e is expected.
    fn number(&mut self, kind: Kind, e: u32) -> u32 {
        let limit = self.limits.limit(self.now);
        let half = (self.settings.rate / 2.0 / 238.0) as u64;
        let r = &mut self.random;
        let above = |k: u64| e.wrapping_add(k as u32);
        match kind {
            InOrder => e,
            Gap => above(r.from_to(1, 6)),
            HalfRate => above(r.from_to(half - 1, half + 2)),
            Limit => above(r.from_to(limit - 1, limit + 2)),
            Stale => e.wrapping_sub(r.one_of(&[1, 1, 2, 7, 63, 64])),
            Restart => match r.below(6) {
                0 => e.wrapping_sub(r.from_to(65, 66) as u32),
                1 => above((1 << 31) - 1),
                2 => above(1 << 31),
                3 => above((1 << 31) + 1),
                4 => above(limit + r.from_to(1, 1 << 20)),
                _ => r.any() as u32,
            },
            _ => 0,
        }
    }

    fn first(&mut self) -> u32 {
        let r = &mut self.random;
        let any = r.any() as u32;
        r.one_of(&[0, 1, 7, 100, u32::MAX - 3, u32::MAX - 1, u32::MAX, any])
    }

    /// Stale, malformed and overloaded ones come in runs; a run of stale ones has malformed ones between.
    pub fn kind(&mut self) -> Kind {
        let weights = weights(self.theme);
        let r = &mut self.random;
        if let Some((kind, left)) = self.run {
            self.run = (left > 1).then_some((kind, left - 1));
            let between = kind == Stale && r.percent(20);
            return if between { Malformed } else { kind };
        }
        let kind = KINDS[r.weighed(&weights)];
        match kind {
            Stale if r.percent(60) => self.run = Some((Stale, r.from_to(5, 9))),
            Malformed if r.percent(40) => self.run = Some((Malformed, r.from_to(1, 4))),
            Overload if r.percent(70) => self.run = Some((Overload, r.from_to(4, 70))),
            _ => {}
        }
        kind
    }

    /// One of a kind, now.
    pub fn arrive(&mut self, kind: Kind) -> Arrival {
        match (kind, self.seen.expected) {
            (Malformed, _) => self.malformed(),
            (Ignored, _) => self.ignored(),
            (Status, _) => self.status(),
            (Overload, _) => self.overload(),
            (_, None) => {
                let n = self.first();
                self.iq(n)
            }
            (_, Some(e)) => {
                let n = self.number(kind, e);
                self.iq(n)
            }
        }
    }
}
