//! Reads a line of a list of calls (docs/CALLS.md). What can't be read gives what was expected, and what was found.
use crate::calls::call::{Arrival, Call, Datagram, Iq, Settings, Waiting};
use crate::calls::found::expected;
use std::net::Ipv4Addr;

/// A line's octets.
const LINE: usize = 100_000;
pub const STRETCHES: usize = 4096;
const PACKET_BUFFER: u64 = 8192;
const TAKE_BUFFER: u64 = 1024;
const DATAGRAM: u64 = 2048;
const WAITING: u64 = 8193;
const EXACT: u64 = 1 << 53;

type Parsed<T> = Result<T, String>;

fn digits(word: &str) -> Option<u64> {
    let all = !word.is_empty() && word.bytes().all(|b| b.is_ascii_digit());
    all.then(|| word.parse().ok())?
}

fn number(word: &str, most: u64) -> Option<u64> {
    digits(word).filter(|n| *n <= most)
}

fn reading(word: &str) -> Option<u64> {
    const UNITS: [(&str, u64); 3] = [("us", 1_000), ("ms", 1_000_000), ("s", 1_000_000_000)];
    let unit = UNITS
        .iter()
        .find_map(|(unit, n)| Some((word.strip_suffix(unit)?, n)));
    match unit {
        Some((count, n)) => digits(count)?.checked_mul(*n),
        None => digits(word),
    }
}

fn hex(word: &str) -> Option<Vec<u8>> {
    let digit = |b: u8| (b as char).to_digit(16).map(|d| d as u8);
    let pair = |p: &[u8]| Some(16 * digit(*p.first()?)? + digit(*p.get(1)?)?);
    word.as_bytes().chunks(2).map(pair).collect()
}

fn double(word: &str) -> Option<f64> {
    match word.strip_prefix("bits:") {
        Some(bits) => Some(f64::from_bits(u64::from_be_bytes(
            hex(bits)?.try_into().ok()?,
        ))),
        None => number(word, EXACT).map(|n| n as f64),
    }
}

fn ipv4(word: &str) -> Option<Ipv4Addr> {
    let parts: Option<Vec<u8>> = word
        .split('.')
        .map(|p| number(p, 255).map(|n| n as u8))
        .collect();
    let octets: [u8; 4] = parts?.try_into().ok()?;
    Some(octets.into())
}

fn sender(word: &str) -> Option<(Option<Ipv4Addr>, u16)> {
    let (address, port) = word.split_once(':')?;
    let address = match address {
        "v6" => None,
        _ => Some(ipv4(address)?),
    };
    Some((address, number(port, 65535)? as u16))
}

fn octets(word: &str) -> Option<Vec<u8>> {
    match word {
        "-" => Some(vec![]),
        _ => hex(word).filter(|o| o.len() as u64 <= DATAGRAM),
    }
}

fn waiting(word: &str) -> Option<Waiting> {
    let one = |w: &str| number(w, u32::MAX as u64).map(|n| n as u32);
    let range = |w: &str| match w.split_once('-') {
        Some((a, b)) => Some((one(a)?, one(b)?)).filter(|(a, b)| a <= b),
        None => Some((one(w)?, one(w)?)),
    };
    let ranges: Option<Vec<_>> = word.split(',').map(range).collect();
    Some(Waiting(ranges?)).filter(|w| w.count() <= WAITING)
}

fn board(word: &str) -> Option<Option<u8>> {
    match word {
        "skipped" => Some(None),
        _ => Some(Some(number(word, 255)? as u8)),
    }
}

fn attenuation(word: &str) -> Option<Option<bool>> {
    match word {
        "on" => Some(Some(true)),
        "off" => Some(Some(false)),
        "unsaid" => Some(None),
        _ => None,
    }
}

/// The words of a line, and which keys were said.
struct Words<'a> {
    words: Vec<&'a str>,
    said: Vec<&'a str>,
}

/// A word `key=value`.
struct Setting<'a> {
    word: &'a str,
    key: &'a str,
    value: &'a str,
}

impl<'a> Words<'a> {
    /// The next word, read.
    fn next<T>(&mut self, read: impl Fn(&'a str) -> Option<T>, what: &str) -> Parsed<T> {
        if self.words.is_empty() {
            return Err(expected(what, None));
        }
        let word = self.words.remove(0);
        read(word).ok_or_else(|| expected(what, Some(word)))
    }

    /// The next word, as a key among these that was not said yet, and its value. None at the line's end.
    fn key(&mut self, keys: &[&str], what: &str) -> Parsed<Option<Setting<'a>>> {
        if self.words.is_empty() {
            return Ok(None);
        }
        let word = self.words.remove(0);
        let known = |key: &str| keys.contains(&key) && !self.said.contains(&key);
        match word.split_once('=').filter(|(key, _)| known(key)) {
            Some((key, value)) => {
                self.said.push(key);
                Ok(Some(Setting { word, key, value }))
            }
            None => Err(expected(what, Some(word))),
        }
    }

    fn end(&self) -> Parsed<()> {
        match self.words.first() {
            None => Ok(()),
            Some(word) => Err(expected(END, Some(word))),
        }
    }
}

impl Setting<'_> {
    fn read<T>(&self, read: impl Fn(&str) -> Option<T>) -> Parsed<T> {
        let what = || expected(&format!("a value of {}", self.key), Some(self.word));
        read(self.value).ok_or_else(what)
    }

    fn number(&self, most: u64) -> Parsed<u64> {
        self.read(|v| number(v, most))
    }

    fn buffer(&self) -> Parsed<Option<usize>> {
        self.number(PACKET_BUFFER).map(|n| Some(n as usize))
    }
}

const END: &str = "the end of the line";
const READING: &str = "a reading";

const SETTINGS: [&str; 13] = [
    "at",
    "receivers",
    "centres",
    "rate",
    "centre",
    "port",
    "radio",
    "board",
    "attenuation",
    "soft",
    "hard",
    "window",
    "malformed",
];

fn open(w: &mut Words) -> Parsed<Call> {
    let mut s = Settings::default();
    while let Some(said) = w.key(&SETTINGS, "a setting")? {
        match said.key {
            "at" => s.at = said.read(reading)?,
            "receivers" => s.receivers = said.number(65535)? as u32,
            "centres" => s.centres = said.number(65535)? as u32,
            "rate" => s.rate = said.read(double)?,
            "centre" => s.centre = said.read(double)?,
            "port" => s.port = said.number(65535)? as u16,
            "radio" => s.radio = said.read(ipv4)?,
            "board" => s.board = said.read(board)?,
            "attenuation" => s.attenuation = said.read(attenuation)?,
            "soft" => s.soft = said.read(reading)?,
            "hard" => s.hard = said.read(reading)?,
            "window" => s.window = said.number(u64::MAX)?,
            _ => s.malformed = said.number(u32::MAX as u64)? as u32,
        }
    }
    Ok(Call::Open(s))
}

/// The options of an arrival; those of I/Q belong to a datagram that is made from a number.
fn arrival(w: &mut Words, at: u64, later: u64, datagram: Datagram) -> Parsed<Call> {
    let mut a = Arrival {
        at,
        later,
        datagram,
        waiting: Waiting::default(),
        buffer: None,
    };
    let keys: &[&str] = match a.datagram {
        Datagram::Iq(_) => &["waiting", "buffer", "length", "bits", "samples"],
        _ => &["waiting", "buffer"],
    };
    while let Some(said) = w.key(keys, END)? {
        match (said.key, &mut a.datagram) {
            ("waiting", _) => a.waiting = said.read(waiting)?,
            ("buffer", _) => a.buffer = said.buffer()?,
            ("length", Datagram::Iq(iq)) => iq.length = said.number(DATAGRAM)? as usize,
            ("bits", Datagram::Iq(iq)) => iq.bits = said.number(65535)? as u16,
            ("samples", Datagram::Iq(iq)) => iq.samples = said.number(65535)? as u16,
            _ => unreachable!(),
        }
    }
    Ok(Call::Arrival(a))
}

fn datagram(w: &mut Words, kind: &str) -> Parsed<Call> {
    let at = w.next(reading, READING)?;
    let later = w.next(reading, READING)?;
    let datagram = match kind {
        "iq" => {
            let n = w.next(|x| number(x, u32::MAX as u64), "a number of a datagram")?;
            Datagram::Iq(Iq::valid(n as u32))
        }
        "status" => Datagram::Status(w.next(|x| number(x, 255), "an octet")? as u8),
        _ => {
            let (address, port) = w.next(sender, "an address and a port")?;
            Datagram::Any(address, port, w.next(octets, "octets in hexadecimal")?)
        }
    };
    arrival(w, at, later, datagram)
}

/// The one option of a call that writes packets.
fn packets(w: &mut Words) -> Parsed<Option<usize>> {
    match w.key(&["buffer"], END)? {
        Some(said) => said.buffer(),
        None => Ok(None),
    }
}

fn call(name: &str, w: &mut Words) -> Parsed<Call> {
    Ok(match name {
        "open" => open(w)?,
        "begin" => Call::Begin(w.next(reading, READING)?),
        "pass" => Call::Pass(w.next(reading, READING)?, packets(w)?),
        "iq" | "status" | "datagram" => datagram(w, name)?,
        "take" => {
            let at = w.next(reading, READING)?;
            let places = w.next(|x| number(x, TAKE_BUFFER), "a number of places")?;
            Call::Take(at, places as usize)
        }
        "missing" => Call::Missing,
        "discontinuity" => Call::Discontinuity,
        "stalled" => Call::Stalled,
        "close" => Call::Close(packets(w)?),
        "state" => Call::State,
        "radio" => Call::Radio,
        _ => return Err(expected("a call", Some(name))),
    })
}

/// A line's call, None for a line without one, or what was expected. The text has one char an octet.
pub fn line(text: &str) -> Parsed<Option<Call>> {
    if text.chars().nth(LINE).is_some() {
        return Err(format!("a shorter line, found more than {LINE} octets"));
    }
    let text = text.split('#').next().unwrap();
    let mut words: Vec<&str> = text
        .split([' ', '\t', '\r'])
        .filter(|w| !w.is_empty())
        .collect();
    if words.is_empty() {
        return Ok(None);
    }
    let name = words.remove(0);
    let said = vec![];
    let mut words = Words { words, said };
    let call = call(name, &mut words)?;
    words.end()?;
    Ok(Some(call))
}
