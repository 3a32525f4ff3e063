//! What the Rust gave for a case, as the case spells it.
use std::panic::{self, AssertUnwindSafe};

pub enum Ran {
    Number(u64),
    Word(String),
    /// Octets that the Rust does not write but reads: whether these are they.
    Reads(Box<dyn Fn(&[u8]) -> bool>),
    /// No counterpart in the Rust, and why.
    Skipped(&'static str),
}
use Ran::*;

pub fn spelt(p: &[u8]) -> String {
    let hex: String = p.iter().map(|b| format!("{b:02x}")).collect();
    format!("x:{hex}")
}

pub fn word(p: &[u8]) -> Ran {
    Word(spelt(p))
}

pub fn option(n: Option<u64>, none: &str) -> Ran {
    n.map_or(Word(none.into()), Number)
}

/// The Rust returns a packet; a lent buffer then holds it over its front.
pub fn lent(packet: &[u8], given: &[u8]) -> Ran {
    if given.len() < packet.len() {
        return Skipped("15, a buffer below its packet: the Rust returns the packet");
    }
    let mut p = given.to_vec();
    p[..packet.len()].copy_from_slice(packet);
    word(&p)
}

/// None where the Rust panics with this text. It is run quietly: any other panic is told and goes on.
pub fn unless_panics<T>(text: &str, body: impl FnOnce() -> T) -> Option<T> {
    let hook = panic::take_hook();
    panic::set_hook(Box::new(|_| {}));
    let done = panic::catch_unwind(AssertUnwindSafe(body));
    panic::set_hook(hook);
    let why = match done {
        Ok(value) => return Some(value),
        Err(why) => why,
    };
    let fixed = why.downcast_ref::<&str>().copied();
    let told = fixed.or(why.downcast_ref::<String>().map(String::as_str));
    match told {
        Some(told) if told.contains(text) => None,
        _ => panic!("the Rust panics: {told:?}"),
    }
}
