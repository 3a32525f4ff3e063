//! Writes a call as docs/CALLS.md has it, with no more than is needed.
use crate::calls::call::{Arrival, Call, Datagram, Iq, Settings, Waiting};
use std::fmt::{self, Display, Formatter};

/// The word `key=value` where the value is not the one that the key stands for when it is left out.
fn said<T: PartialEq>(
    f: &mut Formatter<'_>,
    key: &str,
    x: &T,
    usual: &T,
    text: impl Fn(&T) -> String,
) -> fmt::Result {
    match x == usual {
        true => Ok(()),
        false => write!(f, " {key}={}", text(x)),
    }
}

fn plain<T: Display>(x: &T) -> String {
    x.to_string()
}

fn double(x: &f64) -> String {
    match *x >= 0.0 && *x < 1e15 && x.fract() == 0.0 && x.is_sign_positive() {
        true => format!("{x}"),
        false => format!("bits:{:016x}", x.to_bits()),
    }
}

impl Display for Settings {
    fn fmt(&self, f: &mut Formatter<'_>) -> fmt::Result {
        let usual = Settings::default();
        write!(f, "open")?;
        said(f, "at", &self.at, &usual.at, plain)?;
        said(f, "receivers", &self.receivers, &usual.receivers, plain)?;
        said(f, "centres", &self.centres, &usual.centres, plain)?;
        said(f, "rate", &self.rate, &usual.rate, double)?;
        said(f, "centre", &self.centre, &usual.centre, double)?;
        said(f, "port", &self.port, &usual.port, plain)?;
        said(f, "radio", &self.radio, &usual.radio, plain)?;
        said(f, "board", &self.board, &usual.board, |b| {
            b.map_or("skipped".into(), |b| b.to_string())
        })?;
        said(
            f,
            "attenuation",
            &self.attenuation,
            &usual.attenuation,
            |a| {
                if *a == Some(true) {
                    "on".into()
                } else {
                    "off".into()
                }
            },
        )?;
        said(f, "soft", &self.soft, &usual.soft, plain)?;
        said(f, "hard", &self.hard, &usual.hard, plain)?;
        said(f, "window", &self.window, &usual.window, plain)?;
        said(f, "malformed", &self.malformed, &usual.malformed, plain)
    }
}

fn range(&(a, b): &(u32, u32)) -> String {
    match a == b {
        true => a.to_string(),
        false => format!("{a}-{b}"),
    }
}

fn waiting(w: &Waiting) -> String {
    w.0.iter().map(range).collect::<Vec<_>>().join(",")
}

fn buffer(f: &mut Formatter<'_>, buffer: &Option<usize>) -> fmt::Result {
    said(f, "buffer", buffer, &None, |b| b.unwrap().to_string())
}

fn hex(octets: &[u8]) -> String {
    match octets.is_empty() {
        true => "-".into(),
        false => octets.iter().map(|b| format!("{b:02x}")).collect(),
    }
}

impl Display for Arrival {
    fn fmt(&self, f: &mut Formatter<'_>) -> fmt::Result {
        let (at, later) = (self.at, self.later);
        match &self.datagram {
            Datagram::Iq(iq) => {
                let usual = Iq::valid(iq.number);
                write!(f, "iq {at} {later} {}", iq.number)?;
                said(f, "length", &iq.length, &usual.length, plain)?;
                said(f, "bits", &iq.bits, &usual.bits, plain)?;
                said(f, "samples", &iq.samples, &usual.samples, plain)?;
            }
            Datagram::Status(overload) => write!(f, "status {at} {later} {overload}")?,
            Datagram::Any(address, port, octets) => {
                let address = address.map_or("v6".into(), |a| a.to_string());
                write!(f, "datagram {at} {later} {address}:{port} {}", hex(octets))?;
            }
        }
        said(f, "waiting", &self.waiting, &Waiting::default(), waiting)?;
        buffer(f, &self.buffer)
    }
}

impl Display for Call {
    fn fmt(&self, f: &mut Formatter<'_>) -> fmt::Result {
        match self {
            Call::Open(settings) => write!(f, "{settings}"),
            Call::Begin(at) => write!(f, "begin {at}"),
            Call::Pass(at, room) => {
                write!(f, "pass {at}")?;
                buffer(f, room)
            }
            Call::Arrival(a) => write!(f, "{a}"),
            Call::Take(at, places) => write!(f, "take {at} {places}"),
            Call::Missing => write!(f, "missing"),
            Call::Discontinuity => write!(f, "discontinuity"),
            Call::Stalled => write!(f, "stalled"),
            Call::Close(room) => {
                write!(f, "close")?;
                buffer(f, room)
            }
            Call::State => write!(f, "state"),
            Call::Radio => write!(f, "radio"),
        }
    }
}
