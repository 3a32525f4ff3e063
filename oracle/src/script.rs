//! One read of the Rust's, run under a script: the calls that it makes are asked for one by one, and what it does in each is
//! noted. A read is Begin, then rounds of Pass and Arrival, then Take, or a stall, or the malformed limit.
use crate::calls::call::{Arrival, Call, Datagram, Iq, Settings};
use crate::clock::Asker;
use crate::InputHealthCounters;
use std::cell::RefCell;
use std::collections::VecDeque;
use std::io;
use std::net::{SocketAddr, SocketAddrV4};
use std::rc::Rc;
use std::sync::Arc;

/// Why a list can't go on, and at which line.
#[derive(Debug, Clone, PartialEq)]
pub struct Problem {
    pub line: usize,
    pub text: String,
}

/// Why the Rust is left in the middle of a read, for good.
pub enum Stop {
    /// The list ends there.
    Ended,
    Problem(Problem),
}

/// Where the calls come from.
pub trait Feed {
    /// The Rust looks at its clocks with no sample waiting: a Pass.
    fn pass(&mut self) -> Result<Call, Stop>;
    /// It receives: an Arrival, or None where it waits in vain. What it received ahead must arrive next, by its number.
    fn arrival(&mut self, ahead: Option<u32>) -> Result<Option<Call>, Stop>;
    /// It hands samples out: Take, or a Pass before it.
    fn take(&mut self) -> Result<Call, Stop>;
    /// The waiting numbers don't begin with those that it received ahead.
    fn waiting(&mut self) -> Stop;
    /// It has received these ahead.
    fn received(&mut self, _: &VecDeque<u32>) {}
}

/// One that its owner keeps.
impl<F: Feed> Feed for Rc<RefCell<F>> {
    fn pass(&mut self) -> Result<Call, Stop> {
        self.borrow_mut().pass()
    }
    fn arrival(&mut self, ahead: Option<u32>) -> Result<Option<Call>, Stop> {
        self.borrow_mut().arrival(ahead)
    }
    fn take(&mut self) -> Result<Call, Stop> {
        self.borrow_mut().take()
    }
    fn waiting(&mut self) -> Stop {
        self.borrow_mut().waiting()
    }
    fn received(&mut self, ahead: &VecDeque<u32>) {
        self.borrow_mut().received(ahead)
    }
}

/// A call, and what the Rust did in it.
pub struct Made {
    pub call: Call,
    pub asked: Vec<Asker>,
    /// Each packet with the port that it went to.
    pub sent: Vec<(u16, Vec<u8>)>,
    /// Dropped, gaps and malformed after the call.
    pub counts: [u64; 3],
}

impl Made {
    pub fn asked(&self, asker: Asker) -> bool {
        self.asked.contains(&asker)
    }
}

pub struct Script {
    feed: Box<dyn Feed>,
    settings: Settings,
    counters: Option<Arc<InputHealthCounters>>,
    made: Vec<Made>,
    handing: bool,
    /// Numbers that the Rust has received ahead of their turn, and those that it is to receive so now.
    ahead: VecDeque<u32>,
    new: Option<VecDeque<u32>>,
}

thread_local! {
    static SCRIPT: RefCell<Option<Script>> = const { RefCell::new(None) };
}

fn with<T>(f: impl FnOnce(&mut Script) -> Result<T, Stop>) -> T {
    let done = SCRIPT.with(|s| f(s.borrow_mut().as_mut().expect("a script")));
    done.unwrap_or_else(|stop| std::panic::resume_unwind(Box::new(stop)))
}

pub fn asked(asker: Asker) -> u64 {
    with(|s| s.asked(asker))
}

/// A session that ends with its list, without Close, sends to nobody.
pub fn sent(packet: &[u8], to: SocketAddrV4) {
    SCRIPT.with(|s| {
        if let Some(script) = s.borrow_mut().as_mut() {
            script.sent(packet, to);
        }
    })
}

pub fn receive() -> io::Result<(Vec<u8>, SocketAddr)> {
    with(|s| s.receive())
}

pub fn look_ahead(on: bool) {
    with(|s| s.look_ahead(on))
}

/// What came of running the Rust under a script: None where the list ended in the middle.
pub struct Ran<T> {
    pub value: Option<T>,
    pub made: Vec<Made>,
    /// It had begun to hand samples out.
    pub handing: bool,
}

/// Runs what calls the Rust.
pub fn run<T>(
    mut script: Script,
    first: Call,
    ahead: &mut VecDeque<u32>,
    body: impl FnOnce() -> T,
) -> Result<Ran<T>, Problem> {
    std::mem::swap(&mut script.ahead, ahead);
    script.make(first);
    SCRIPT.with(|s| *s.borrow_mut() = Some(script));
    let done = std::panic::catch_unwind(std::panic::AssertUnwindSafe(body));
    let mut script = SCRIPT.with(|s| s.borrow_mut().take()).unwrap();
    script.close_call();
    let value = match done {
        Ok(value) => Some(value),
        Err(why) => match why.downcast::<Stop>().map(|stop| *stop) {
            Ok(Stop::Ended) => None,
            Ok(Stop::Problem(p)) => return Err(p),
            Err(panic) => std::panic::resume_unwind(panic),
        },
    };
    *ahead = script.ahead;
    Ok(Ran {
        value,
        made: script.made,
        handing: script.handing,
    })
}

impl Script {
    pub fn new(
        feed: Box<dyn Feed>,
        settings: &Settings,
        counters: Option<Arc<InputHealthCounters>>,
    ) -> Self {
        Self {
            feed,
            settings: settings.clone(),
            counters,
            made: vec![],
            handing: false,
            ahead: VecDeque::new(),
            new: None,
        }
    }

    fn counts(&self) -> [u64; 3] {
        self.counters.as_ref().map_or([0; 3], |c| {
            [
                c.dropped_packets(),
                c.gaps_detected(),
                c.malformed_packets(),
            ]
        })
    }

    fn close_call(&mut self) {
        let counts = self.counts();
        if let Some(made) = self.made.last_mut() {
            made.counts = counts;
        }
    }

    fn make(&mut self, call: Call) {
        self.close_call();
        self.made.push(Made {
            call,
            asked: vec![],
            sent: vec![],
            counts: [0; 3],
        });
    }

    fn current(&mut self) -> &mut Made {
        self.made.last_mut().unwrap()
    }

    fn in_pass(&mut self) -> bool {
        matches!(self.current().call, Call::Pass(..))
    }

    /// The Rust takes what it received ahead without asking the socket; all of it is valid I/Q, so it then asks the clock.
    fn from_ahead(&mut self) -> Result<(), Stop> {
        let number = self.ahead.pop_front();
        assert!(number.is_some());
        let call = self.feed.arrival(number)?;
        self.make(call.unwrap());
        Ok(())
    }

    fn reading(&mut self, later: bool) -> u64 {
        match &self.current().call {
            Call::Open(s) => s.at,
            Call::Begin(at) | Call::Pass(at, _) | Call::Take(at, _) => *at,
            Call::Arrival(Arrival { later: l, .. }) if later => *l,
            Call::Arrival(a) => a.at,
            call => panic!("{call:?} has no reading"),
        }
    }

    fn asked(&mut self, asker: Asker) -> Result<u64, Stop> {
        use Asker::*;
        match asker {
            Soft => {
                let pass = self.feed.pass()?;
                self.make(pass);
            }
            Valid if self.in_pass() => self.from_ahead()?,
            Taken => loop {
                self.handing = true;
                let call = self.feed.take()?;
                let last = matches!(call, Call::Take(..));
                self.make(call);
                if last {
                    break;
                }
            },
            _ => {}
        }
        let fits = match (asker, &self.current().call) {
            (Opening, Call::Open(_)) | (Pause | Anchor, Call::Begin(_)) => true,
            (Soft | Hard | Keepalive | Tick | Step, Call::Pass(..)) => true,
            (Status | Valid | Step | Restart, Call::Arrival(_)) => true,
            (Taken, Call::Take(..)) => true,
            _ => false,
        };
        assert!(fits, "{asker:?} asked in {:?}", self.current().call);
        self.current().asked.push(asker);
        Ok(self.reading(matches!(asker, Step | Restart)))
    }

    fn sent(&mut self, packet: &[u8], to: SocketAddrV4) {
        assert_eq!(*to.ip(), self.settings.radio);
        self.current().sent.push((to.port(), packet.to_vec()));
    }

    fn look_ahead(&mut self, on: bool) -> Result<(), Stop> {
        if self.new.take().is_some() {
            self.feed.received(&self.ahead);
        }
        if on {
            let Call::Arrival(a) = &self.current().call else {
                panic!("looked ahead in {:?}", self.current().call);
            };
            let mut waiting: VecDeque<u32> = a.waiting.numbers().collect();
            for left in &self.ahead {
                if waiting.pop_front() != Some(*left) {
                    return Err(self.feed.waiting());
                }
            }
            self.new = Some(waiting);
        }
        Ok(())
    }

    fn receive(&mut self) -> Result<io::Result<(Vec<u8>, SocketAddr)>, Stop> {
        let wait = Ok(Err(io::ErrorKind::WouldBlock.into()));
        if let Some(new) = self.new.as_mut() {
            let Some(number) = new.pop_front() else {
                return wait;
            };
            self.ahead.push_back(number);
            let d = Datagram::Iq(Iq::valid(number));
            return Ok(Ok((d.octets(), d.from(&self.settings))));
        }
        assert!(self.in_pass());
        let Some(call) = self.feed.arrival(None)? else {
            return wait;
        };
        let Call::Arrival(a) = &call else {
            panic!("{call:?} arrived");
        };
        let got = (a.datagram.octets(), a.datagram.from(&self.settings));
        self.make(call);
        Ok(Ok(got))
    }
}
