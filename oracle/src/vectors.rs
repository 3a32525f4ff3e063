//! Prints cases whose expected values are the Rust's own: inputs are drawn about the edges, and cases/ judges them.
mod doubles;
mod numbers;
mod octets;
mod radio;

use crate::cases;
use crate::random::Random;
use std::collections::HashSet;

const HEAD: &str = "\
# Cases whose expected values are the Rust's: `oracle/run vectors` (`make vectors`) draws what is given from fixed
# seeds, and prints what manta's own functions give for it.";

/// The lines printed so far, by what stands left.
struct Page(HashSet<String>);

impl Page {
    fn title(&mut self, text: &str) {
        println!("\n# {text}");
    }

    /// Nothing where the Rust has no counterpart.
    fn case(&mut self, left: String) {
        if !self.0.contains(&left) {
            if let Some(right) = cases::answer(&left) {
                println!("{left} = {right}");
            }
            self.0.insert(left);
        }
    }
}

/// A seed each: a further part leaves the others as they are.
const PARTS: [fn(&mut Page, &mut Random); 14] = [
    doubles::phase_words,
    doubles::rates,
    doubles::alex_words,
    doubles::jump_limits,
    doubles::nanoseconds,
    numbers::boards,
    numbers::arrivals,
    octets::packets,
    octets::statuses,
    octets::iq_headers,
    octets::iq_samples,
    octets::requests,
    octets::replies,
    radio::commands,
];

pub fn run() {
    println!("{HEAD}");
    let mut page = Page(HashSet::new());
    for (seed, part) in PARTS.iter().enumerate() {
        part(&mut page, &mut Random::new(seed as u64 + 1));
    }
}
