//! A list as the calls of a read, and where it asks what the Rust can't be asked.
use crate::calls::call::{Call, Datagram, Iq};
use crate::script::{Feed, Problem, Stop};

pub fn expected_at(line: usize, what: &str) -> Problem {
    Problem {
        line,
        text: format!("expected {what}"),
    }
}

/// How the text begins that tells it.
pub const NO_COUNTERPART: &str = "no counterpart in the Rust";

/// What 01 asks for and the Rust can't be asked.
pub fn no_counterpart(line: usize, why: &str) -> Problem {
    Problem {
        line,
        text: format!("{NO_COUNTERPART}: {why}"),
    }
}

/// The list, and the call that comes next.
pub struct ListFeed {
    pub lines: Vec<(usize, Call)>,
    pub next: usize,
    /// The last reading that was accepted.
    pub last: u64,
}

impl ListFeed {
    /// A call that 01 refuses, whatever else the session holds.
    fn refused(&self, line: usize, call: &Call) -> Result<(), Problem> {
        let below = |room: &Option<usize>, least: usize| room.is_some_and(|n| n < least);
        let why = match call {
            Call::Begin(at) | Call::Pass(at, _) | Call::Take(at, _) if *at < self.last => 11,
            Call::Arrival(a) if a.at < self.last => 11,
            Call::Arrival(a) if a.later < a.at => 13,
            Call::Arrival(a) if a.waiting.count() > 8192 => 14,
            Call::Arrival(a) if below(&a.buffer, 1444) => 15,
            Call::Pass(_, room) if below(room, 4452) => 15,
            Call::Close(room) if below(room, 2888) => 15,
            Call::Take(_, places) if *places < 2 => 16,
            _ => return Ok(()),
        };
        Err(no_counterpart(line, &format!("01 refuses it with {why}")))
    }

    pub fn advance(&mut self) -> Result<Call, Problem> {
        let (line, call) = self.lines[self.next].clone();
        self.refused(line, &call)?;
        self.next += 1;
        match &call {
            Call::Open(s) => self.last = s.at,
            Call::Begin(at) | Call::Pass(at, _) | Call::Take(at, _) => self.last = *at,
            Call::Arrival(a) => self.last = a.later,
            _ => {}
        }
        Ok(call)
    }

    fn step(&mut self) -> Result<Call, Stop> {
        self.advance().map_err(Stop::Problem)
    }

    /// The next call of this session. Open and the list's end end it.
    fn peek(&self) -> Result<&Call, Stop> {
        match self.lines.get(self.next) {
            None | Some((_, Call::Open(_))) => Err(Stop::Ended),
            Some((_, call)) => Ok(call),
        }
    }

    /// The Rust does something else here.
    fn instead(&self, what: &str) -> Stop {
        Stop::Problem(no_counterpart(self.lines[self.next].0, what))
    }

    /// Room for the pairs of the Take that may end a read which begins here.
    pub fn pairs(&self) -> usize {
        let inside = |c: &&(usize, Call)| matches!(c.1, Call::Pass(..) | Call::Arrival(_));
        match self.lines[self.next..].iter().find(|c| !inside(c)) {
            Some((_, Call::Take(_, places))) => (places / 2).max(1),
            _ => 1,
        }
    }
}

impl Feed for ListFeed {
    fn pass(&mut self) -> Result<Call, Stop> {
        match self.peek()? {
            Call::Pass(..) => self.step(),
            _ => Err(self.instead("with no sample waiting a read goes on with a Pass")),
        }
    }

    fn arrival(&mut self, ahead: Option<u32>) -> Result<Option<Call>, Stop> {
        match (self.peek()?, ahead) {
            (Call::Arrival(a), Some(n)) if a.datagram == Datagram::Iq(Iq::valid(n)) => {
                self.step().map(Some)
            }
            (_, Some(n)) => Err(self.instead(&format!("number {n}, received ahead, arrives next"))),
            (Call::Arrival(_), None) => self.step().map(Some),
            (Call::Pass(..), None) => Ok(None),
            _ => Err(self.instead("after a Pass a read goes on with an Arrival or a Pass")),
        }
    }

    fn take(&mut self) -> Result<Call, Stop> {
        match self.peek()? {
            Call::Pass(..) | Call::Take(..) => self.step(),
            _ => Err(self.instead("with samples waiting a read goes on with a Take")),
        }
    }

    fn waiting(&mut self) -> Stop {
        self.next -= 1;
        self.instead("the waiting numbers don't begin with those received ahead")
    }
}
