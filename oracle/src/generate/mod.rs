//! Random lists of calls from a seed, within 01's domain, that aim at the edges (docs/CALLS.md, lists/README.md).
mod arrivals;
mod feed;
mod settings;

use crate::calls::call::{Call, Settings};
use crate::calls::{flags, list, parse};
use crate::hpsdr::proto2::session::aims::{seen, Limits};
use crate::hpsdr::proto2::session::{self, End, Session};
use crate::random::Random;
use feed::RandomFeed;
use settings::{Theme, MS, S, THEMES};
use std::cell::RefCell;
use std::collections::VecDeque;
use std::io::Write;
use std::rc::Rc;

/// A session and its list so far.
struct Maker<W: Write> {
    session: Session,
    feed: Rc<RefCell<RandomFeed>>,
    made: u64,
    out: W,
}

fn pause(r: &mut Random, theme: Theme, now: u64, taken: u64) -> u64 {
    let long = if theme == Theme::Pauses { 45 } else { 12 };
    if r.percent(long) {
        return match r.below(4) {
            0 | 1 => r.about(taken + 100 * MS).max(now),
            2 => now + r.from_to(100, 900) * MS,
            _ => now + r.from_to(1, 200) * S + r.below(S),
        };
    }
    now + r.one_of(&[0, 1, 1000, MS, 5 * MS])
}

impl<W: Write> Maker<W> {
    fn write(&mut self, call: &Call) {
        self.made += 1;
        writeln!(self.out, "{call}").unwrap();
    }

    /// The radio is asked in so many of a hundred places. It is no call, and is drawn beside the others, so that a seed's calls are
    /// what they are without it.
    fn ask_radio(&mut self, percent: u64) {
        if Random::new(self.made).percent(percent) {
            writeln!(self.out, "{}", Call::Radio).unwrap();
        }
    }

    /// How a read ended.
    fn read(&mut self) -> End {
        let mut feed = self.feed.borrow_mut();
        feed.seen = seen(&self.session);
        let (theme, now, taken) = (feed.theme, feed.now, feed.seen.taken);
        let at = pause(&mut feed.random, theme, now, taken);
        feed.now = at;
        feed.begun = at;
        feed.limits.follow(&self.session, at);
        feed.places = feed
            .random
            .one_of(&[2, 3, 4, 100, 475, 476, 476, 476, 476, 477, 1000]);
        let pairs = feed.places / 2;
        drop(feed);
        let read = self.session.read(self.feed.clone(), at, pairs).unwrap();
        for made in &read.made {
            self.write(&made.call);
        }
        read.end
    }

    fn between(&mut self) {
        let drawn: Vec<bool> = {
            let r = &mut self.feed.borrow_mut().random;
            [25, 25, 12, 35].into_iter().map(|n| r.percent(n)).collect()
        };
        if drawn[0] {
            self.session.take_missing_samples();
            self.write(&Call::Missing);
        }
        if drawn[1] {
            self.session.take_discontinuity();
            self.write(&Call::Discontinuity);
        }
        if drawn[2] {
            self.session.take_stalled();
            self.write(&Call::Stalled);
        }
        if drawn[3] {
            self.write(&Call::State);
        }
        self.ask_radio(20);
    }
}

fn feed(r: &mut Random, session: &Session, theme: Theme, most: u64) -> RandomFeed {
    let settings = session.settings().clone();
    RandomFeed {
        random: Random::new(r.any()),
        theme,
        now: settings.at,
        left: r.from_to(20, 600).min(most),
        seen: seen(session),
        limits: Limits::new(&settings),
        begun: settings.at,
        places: 476,
        ahead: VecDeque::new(),
        run: None,
        settings,
    }
}

fn make_session(r: &mut Random, most: u64, out: &mut impl Write) -> u64 {
    let theme = r.one_of(&THEMES);
    let settings = settings::accepted(r, theme);
    let session = session::open(&settings).unwrap_or_else(|n| panic!("refused {n}"));
    let mut maker = Maker {
        feed: Rc::new(RefCell::new(feed(r, &session, theme, most))),
        session,
        made: 0,
        out,
    };
    maker.write(&Call::Open(settings));
    let mut hard = 0;
    // after a hard stall each read ends at once, the anchor being kept: a second one shows it
    while maker.feed.borrow().left > 0 && hard < 2 {
        match maker.read() {
            End::Open => return maker.made,
            End::Hard => hard += 1,
            _ => {}
        }
        maker.between();
    }
    if r.percent(80) {
        maker.write(&Call::State);
        maker.write(&Call::Close(None));
        maker.ask_radio(50);
    }
    maker.made
}

/// Some that are refused, and may be.
fn opens(r: &mut Random, out: &mut impl Write) -> u64 {
    let n = r.from_to(1, 8);
    for _ in 0..n {
        let s: Settings = settings::any(r);
        writeln!(out, "{}", Call::Open(s)).unwrap();
    }
    n
}

/// A list's first line begins so, then come its seed and how many calls were asked for.
pub const MADE_BY: &str = "# made by: oracle/run generate ";

/// A list of at least so many calls.
pub fn text(seed: u64, calls: u64) -> String {
    let mut r = Random::new(seed);
    let mut made = 0;
    let mut out = vec![];
    writeln!(out, "{MADE_BY}{seed} {calls}").unwrap();
    while made < calls {
        made += match r.percent(15) {
            true => opens(&mut r, &mut out),
            false => make_session(&mut r, calls - made, &mut out),
        };
    }
    String::from_utf8(out).unwrap()
}

/// Whether each line of a list reads as the call that it was written from.
fn reads_back(list: &str) -> bool {
    let same = |line: &str| match parse::line(line) {
        Ok(Some(call)) => call.to_string() == line,
        Ok(None) => true,
        Err(_) => false,
    };
    list.lines().all(same)
}

/// Lists from further seeds: the Rust answers them all, and its accounts add up.
pub fn check() -> bool {
    let (mut calls, mut stretches, mut wrong) = (0, 0, 0);
    for seed in 101..=110 {
        let list = text(seed, 10_000);
        let ran = list::run(&list, flags::NONE, std::io::sink());
        calls += ran.calls;
        stretches += ran.stretches;
        if !ran.fine || ran.uneven > 0 || !reads_back(&list) {
            wrong += 1;
            println!("the list of seed {seed}: {ran:?}");
        }
    }
    println!("{calls} random calls run by the Rust, {stretches} stretches, {wrong} lists not as they should be");
    wrong == 0
}
