//! The scripted clock: manta's `Instant` and `thread::sleep`. Who asks for a reading is known by the place that asks.
use crate::script;
use std::fmt;
use std::panic::Location;
use std::sync::OnceLock;
use std::time::Duration;

/// mod.rs as it was compiled.
const PROTO2: &str = include_str!(concat!(env!("OUT_DIR"), "/hpsdr/proto2/mod.rs"));

/// The places of mod.rs that ask, by what they want the reading for.
#[derive(Debug, Clone, Copy, PartialEq, Eq)]
pub enum Asker {
    Opening,
    /// `read`: has the caller paused?
    Pause,
    /// `fill_queue`: where the wait begins.
    Anchor,
    Soft,
    Hard,
    Keepalive,
    Tick,
    /// `apply_step`: the 100 ms clock, from a tick or from a status packet.
    Step,
    Status,
    /// `handle_iq`: a valid I/Q datagram.
    Valid,
    /// `restart_outage`, in a window.
    Restart,
    /// `read`: it returns samples.
    Taken,
}
use Asker::*;

/// The name of the function that a line stands in.
fn function<'a>(lines: &[&'a str], at: usize) -> &'a str {
    let name = |line: &&'a str| {
        let begins = ["fn ", "pub fn "]
            .iter()
            .find_map(|f| line.trim_start().strip_prefix(f));
        begins?.split('(').next()
    };
    lines[..=at].iter().rev().find_map(name).unwrap()
}

/// Who asks at a line of mod.rs.
fn at_line(lines: &[&str], at: usize) -> Asker {
    let test = lines[at].contains(".elapsed()");
    match (function(lines, at), test) {
        ("open", _) => Opening,
        ("read", true) => Pause,
        ("read", false) => Taken,
        ("fill_queue", true) => Hard,
        ("fill_queue", false) => Soft,
        ("send_keepalive_if_due", _) => Keepalive,
        ("tick_attenuation", _) => Tick,
        ("apply_step", _) => Step,
        ("handle_status", _) => Status,
        ("handle_iq", _) => Valid,
        ("restart_outage", _) => Restart,
        (other, _) => panic!("{other} asks the clock"),
    }
}

/// `get_or_insert_with(Instant::now)` calls from inside the standard library: it is the only one that does.
fn asker(place: &Location) -> Asker {
    static LINES: OnceLock<Vec<Option<Asker>>> = OnceLock::new();
    let askers = LINES.get_or_init(|| {
        let lines: Vec<&str> = PROTO2.lines().collect();
        let asks = |l: &str| l.contains("Instant::now()") || l.contains(".elapsed()");
        (0..lines.len())
            .map(|i| asks(lines[i]).then(|| at_line(&lines, i)))
            .collect()
    });
    match place.file().ends_with("hpsdr/proto2/mod.rs") {
        true => askers[place.line() as usize - 1].unwrap(),
        false => Anchor,
    }
}

/// A reading. Its arithmetic is the standard library's.
#[derive(Clone, Copy, PartialEq, Eq, PartialOrd, Ord)]
pub struct Instant(std::time::Instant);

fn zero() -> std::time::Instant {
    static ZERO: OnceLock<std::time::Instant> = OnceLock::new();
    *ZERO.get_or_init(std::time::Instant::now)
}

impl Instant {
    pub fn at(reading: u64) -> Self {
        Self(zero() + Duration::from_nanos(reading))
    }

    pub fn reading(self) -> u64 {
        self.0.duration_since(zero()).as_nanos() as u64
    }

    #[track_caller]
    pub fn now() -> Self {
        Self::at(script::asked(asker(Location::caller())))
    }

    #[track_caller]
    pub fn elapsed(&self) -> Duration {
        Self::now().0.duration_since(self.0)
    }

    pub fn duration_since(&self, earlier: Self) -> Duration {
        self.0.duration_since(earlier.0)
    }

    pub fn saturating_duration_since(&self, earlier: Self) -> Duration {
        self.0.saturating_duration_since(earlier.0)
    }
}

/// The reading, so that what holds one can be read off its debug text.
impl fmt::Debug for Instant {
    fn fmt(&self, f: &mut fmt::Formatter<'_>) -> fmt::Result {
        write!(f, "{}", self.reading())
    }
}

/// Nobody waits: the clock says what the list says.
pub fn sleep(_: Duration) {}
