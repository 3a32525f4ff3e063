//! Runs a list of calls through the Rust and writes an answer a line (docs/CALLS.md).
use crate::calls::account::Account;
use crate::calls::answer::{answers, sent, Answer};
use crate::calls::call::{Call, Settings};
use crate::calls::feed::{expected_at, no_counterpart, ListFeed, NO_COUNTERPART};
use crate::calls::flags::Flags;
use crate::calls::found::expected;
use crate::calls::parse;
use crate::hpsdr::proto2::session::{self, Session};
use crate::radio::Radio;
use crate::script::{Made, Problem};
use std::cell::RefCell;
use std::io::Write;
use std::rc::Rc;

/// The calls of a list up to the first line that can't be read, and that line.
fn read_list(text: &str) -> (Vec<(usize, Call)>, Option<Problem>) {
    let mut lines = vec![];
    for (i, line) in text.split('\n').enumerate() {
        match parse::line(line) {
            Ok(Some(call)) => lines.push((i + 1, call)),
            Ok(None) => {}
            Err(expected) => {
                let p = expected_at(i + 1, &expected);
                return (lines, Some(p));
            }
        }
    }
    (lines, None)
}

/// The first word of a call's line, which has one form.
fn name(call: &Call) -> String {
    call.to_string().split(' ').next().unwrap().into()
}

struct Runner<W: Write> {
    feed: Rc<RefCell<ListFeed>>,
    session: Option<Session>,
    /// The account of a session that was opened, until it is written.
    account: Option<Account>,
    /// Told what the session sends.
    radio: Radio,
    ran: Ran,
    flags: Flags,
    out: W,
}

/// What came of a list.
#[derive(Debug, Default)]
pub struct Ran {
    /// How many calls were answered, how many sessions were opened, and how many stretches the accounts have.
    pub calls: usize,
    pub sessions: usize,
    pub stretches: usize,
    /// Accounts that don't add up.
    pub uneven: usize,
    /// Whether no line went wrong, and whether one asks what the Rust can't be asked.
    pub fine: bool,
    pub outside: bool,
}

impl<W: Write> Runner<W> {
    fn say(
        &mut self,
        line: usize,
        call: &Call,
        answer: Answer,
        samples: u64,
    ) -> Result<(), Problem> {
        self.ran.calls += 1;
        if self.flags.numbered {
            write!(self.out, "{line}: ").unwrap();
        }
        writeln!(self.out, "{answer}").unwrap();
        let Some(account) = self.account.as_mut() else {
            return Ok(());
        };
        let gap = account.told(call, &answer, samples);
        if let Some(gap) = gap.filter(|_| self.flags.gaps) {
            writeln!(self.out, "{gap}").unwrap();
        }
        match account.stretches() {
            n if n > parse::STRETCHES => {
                Err(expected_at(line, &format!("fewer stretches, found {n}")))
            }
            _ => Ok(()),
        }
    }

    fn hear(&mut self, made: &Made, settings: &Settings) {
        for (port, packet) in &made.sent {
            self.radio.hear((port - settings.port) as usize, packet);
        }
    }

    fn close(&mut self, line: usize, call: Call) -> Result<(), Problem> {
        let s = self.session.take().unwrap();
        let settings = s.settings().clone();
        self.account.as_mut().unwrap().end(s.queue().1, s.counts());
        let made = s.close(call.clone());
        self.hear(&made[0], &settings);
        self.say(line, &call, Answer::Sent(sent(&made[0], &settings)), 0)
    }

    /// Writes the account of the session before, if there is one.
    fn end(&mut self) {
        if let (Some(s), Some(account)) = (self.session.take(), self.account.as_mut()) {
            account.end(s.queue().1, s.counts());
        }
        if let Some(account) = self.account.take() {
            write!(self.out, "{account}").unwrap();
            self.ran.stretches += account.stretches();
            self.ran.uneven += !account.adds_up() as usize;
        }
    }

    fn open(&mut self, line: usize, call: Call, settings: &Settings) -> Result<(), Problem> {
        self.end();
        let answer = match session::open(settings) {
            Ok(s) => {
                self.ran.sessions += 1;
                self.session = Some(s);
                self.account = Some(Account::default());
                self.radio = Radio::default();
                Answer::Opened
            }
            Err(number) => Answer::Refused(number),
        };
        self.say(line, &call, answer, 0)
    }

    fn read(&mut self, first: usize, at: u64) -> Result<(), Problem> {
        let session = self.session.as_mut().unwrap();
        let before = session.counts();
        let pairs = self.feed.borrow().pairs();
        let read = session.read(self.feed.clone(), at, pairs)?;
        let settings = session.settings().clone();
        let told = answers(&read, before, &settings);
        let samples = session.queue().0;
        for (i, (made, answer)) in read.made.iter().zip(told).enumerate() {
            self.hear(made, &settings);
            let line = self.feed.borrow().lines[first + i].0;
            self.say(line, &made.call, answer, samples)?;
        }
        Ok(())
    }

    /// A call with the session between reads. The radio is there after Close too.
    fn between(&mut self, at: usize, line: usize, call: Call) -> Result<(), Problem> {
        if call == Call::Radio && self.account.is_some() {
            let answer = Answer::Asked(self.radio.to_string());
            return self.say(line, &call, answer, 0);
        }
        let Some(session) = self.session.as_mut() else {
            return Err(match self.account {
                Some(_) => no_counterpart(line, "the session is closed"),
                None => expected_at(line, &expected("open", Some(&name(&call)))),
            });
        };
        let answer = match &call {
            Call::Begin(reading) => return self.read(at, *reading),
            Call::Close(_) => return self.close(line, call),
            Call::Missing => Answer::Missing(session.take_missing_samples()),
            Call::Discontinuity => Answer::Discontinuity(session.take_discontinuity()),
            Call::Stalled => Answer::Stalled(session.take_stalled()),
            Call::State => Answer::Asked(session::state::text(session)),
            _ => return Err(no_counterpart(line, "no read is open")),
        };
        self.say(line, &call, answer, 0)
    }

    fn run(&mut self) -> Result<(), Problem> {
        loop {
            let at = self.feed.borrow().next;
            let Some(line) = self.feed.borrow().lines.get(at).map(|l| l.0) else {
                return Ok(());
            };
            let call = self.feed.borrow_mut().advance()?;
            match call.clone() {
                Call::Open(settings) => self.open(line, call, &settings)?,
                _ => self.between(at, line, call)?,
            }
        }
    }
}

/// Writes an answer a line, and the account of each session at its end. What goes wrong is the last line, and no account
/// follows it. The text has one char an octet.
pub fn run(text: &str, flags: Flags, out: impl Write) -> Ran {
    let (lines, wrong) = read_list(text);
    let feed = ListFeed {
        lines,
        next: 0,
        last: 0,
    };
    let mut runner = Runner {
        feed: Rc::new(RefCell::new(feed)),
        session: None,
        account: None,
        radio: Radio::default(),
        ran: Ran::default(),
        flags,
        out,
    };
    let problem = runner.run().err().or(wrong);
    match &problem {
        Some(p) => writeln!(runner.out, "error line {}: {}", p.line, p.text).unwrap(),
        None => runner.end(),
    }
    Ran {
        fine: problem.is_none(),
        outside: problem.is_some_and(|p| p.text.starts_with(NO_COUNTERPART)),
        ..runner.ran
    }
}
