//! A list of calls, as values (docs/CALLS.md).
use crate::hpsdr::proto2::session;
use std::net::{Ipv4Addr, Ipv6Addr, SocketAddr, SocketAddrV4};

#[derive(Debug, Clone, PartialEq)]
pub struct Settings {
    pub at: u64,
    pub receivers: u32,
    pub centres: u32,
    pub rate: f64,
    pub centre: f64,
    pub port: u16,
    pub radio: Ipv4Addr,
    /// None where discovery was skipped.
    pub board: Option<u8>,
    /// None is unsaid.
    pub attenuation: Option<bool>,
    pub soft: u64,
    pub hard: u64,
    pub window: u64,
    pub malformed: u32,
}

/// What a key that is left out stands for: the Rust's own values, where it has them.
impl Default for Settings {
    fn default() -> Self {
        Self {
            at: 0,
            receivers: 1,
            centres: 1,
            rate: 48000.0,
            centre: 7_000_000.0,
            port: 1024,
            radio: Ipv4Addr::new(10, 0, 0, 2),
            board: Some(1),
            attenuation: None,
            soft: session::SOFT,
            hard: session::HARD,
            window: session::WINDOW,
            malformed: session::MALFORMED,
        }
    }
}

/// Octets from the radio's I/Q port, made from a number: octets 0 to 3 hold it, 12 and 13 the bits, 14 and 15 the samples,
/// and pair j, from octet 16 on, is I = (238 × number + j) modulo 2^24, Q = 2^24 - 1 - I; then cut, or filled up with 0.
#[derive(Debug, Clone, Copy, PartialEq)]
pub struct Iq {
    pub number: u32,
    pub length: usize,
    pub bits: u16,
    pub samples: u16,
}

impl Iq {
    pub fn valid(number: u32) -> Self {
        Self {
            number,
            length: 1444,
            bits: 24,
            samples: 238,
        }
    }

    pub fn octets(&self) -> Vec<u8> {
        let mut p = Vec::with_capacity(1444);
        p.extend(self.number.to_be_bytes());
        p.extend([0; 8]);
        p.extend(self.bits.to_be_bytes());
        p.extend(self.samples.to_be_bytes());
        for j in 0..238 {
            let i = (238 * self.number as u64 + j) % (1 << 24);
            p.extend(&(i as u32).to_be_bytes()[1..]);
            p.extend(&((1 << 24) - 1 - i as u32).to_be_bytes()[1..]);
        }
        p.resize(self.length, 0);
        p
    }
}

#[derive(Debug, Clone, PartialEq)]
pub enum Datagram {
    Iq(Iq),
    /// A status packet of 60 octets, by its octet 5.
    Status(u8),
    /// Any octets. The address is None for an IPv6 sender.
    Any(Option<Ipv4Addr>, u16, Vec<u8>),
}

impl Datagram {
    pub fn octets(&self) -> Vec<u8> {
        match self {
            Datagram::Iq(iq) => iq.octets(),
            Datagram::Status(overload) => {
                let mut p = vec![0; 60];
                p[5] = *overload;
                p
            }
            Datagram::Any(_, _, octets) => octets.clone(),
        }
    }

    pub fn from(&self, s: &Settings) -> SocketAddr {
        let radio = |offset| SocketAddrV4::new(s.radio, s.port + offset).into();
        match self {
            Datagram::Iq(_) => radio(11),
            Datagram::Status(_) => radio(1),
            Datagram::Any(Some(ip), port, _) => SocketAddrV4::new(*ip, *port).into(),
            Datagram::Any(None, port, _) => (Ipv6Addr::LOCALHOST, *port).into(),
        }
    }
}

/// Waiting numbers, as ranges with both ends.
#[derive(Debug, Clone, PartialEq, Default)]
pub struct Waiting(pub Vec<(u32, u32)>);

impl Waiting {
    pub fn numbers(&self) -> impl Iterator<Item = u32> + '_ {
        self.0.iter().flat_map(|&(a, b)| a..=b)
    }

    pub fn count(&self) -> u64 {
        self.0.iter().map(|&(a, b)| b as u64 - a as u64 + 1).sum()
    }
}

#[derive(Debug, Clone, PartialEq)]
pub struct Arrival {
    pub at: u64,
    pub later: u64,
    pub datagram: Datagram,
    pub waiting: Waiting,
    /// The packet buffer's length; None is what the call needs.
    pub buffer: Option<usize>,
}

#[derive(Debug, Clone, PartialEq)]
pub enum Call {
    Open(Settings),
    Begin(u64),
    Pass(u64, Option<usize>),
    Arrival(Arrival),
    /// The reading, and the buffer's length in f32.
    Take(u64, usize),
    Missing,
    Discontinuity,
    Stalled,
    Close(Option<usize>),
    /// No calls: what the session holds, and what the practice radio beside it keeps.
    State,
    Radio,
}
