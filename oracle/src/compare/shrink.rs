//! A list that shows something, made as small as it still shows it: sessions are dropped, then calls, then words with a `=`.
use std::time::Instant;

/// A read can't go with a line of its own missing, and is so many lines long at most, mostly.
const SHORT: usize = 8;

pub struct Shrinking<F: Fn(&str) -> bool> {
    /// Whether a list still shows it.
    pub shows: F,
    /// When to leave it at what was reached.
    pub end: Instant,
}

impl<F: Fn(&str) -> bool> Shrinking<F> {
    fn goes_on(&self) -> bool {
        Instant::now() < self.end
    }

    /// Drops runs of n parts wherever the rest still shows it; a long run is tried at every n-th part alone.
    fn drop_runs(&self, parts: &mut Vec<&str>, n: usize) {
        let mut at = 0;
        while at + n <= parts.len() && self.goes_on() {
            let rest = [&parts[..at], &parts[at + n..]].concat();
            if (self.shows)(&rest.concat()) {
                *parts = rest;
            } else {
                at += if n > SHORT { n } else { 1 };
            }
        }
    }

    /// Long runs, each half as long as the one before, then short ones until none can go.
    fn drop_parts(&self, mut parts: Vec<&str>) -> String {
        let mut n = parts.len() / 2;
        while n > SHORT {
            self.drop_runs(&mut parts, n);
            n /= 2;
        }
        let mut before = usize::MAX;
        while parts.len() < before {
            before = parts.len();
            for n in (1..=SHORT).rev() {
                self.drop_runs(&mut parts, n);
            }
        }
        parts.concat()
    }

    fn drop_words(&self, list: String) -> String {
        let mut list = list;
        let words: Vec<String> = list.split_whitespace().map(String::from).collect();
        for word in words.iter().filter(|w| w.contains('=')) {
            let rest = list.replacen(&format!(" {word}"), "", 1);
            if self.goes_on() && (self.shows)(&rest) {
                list = rest;
            }
        }
        list
    }

    pub fn smallest(&self, list: &str) -> String {
        let starts = list.match_indices("open").map(|(at, _)| at);
        let starts: Vec<usize> = starts
            .filter(|&at| at == 0 || list[..at].ends_with('\n'))
            .collect();
        let ends = starts.iter().copied().skip(1).chain([list.len()]);
        let sessions = starts.iter().zip(ends).map(|(&a, b)| &list[a..b]).collect();
        let list = self.drop_parts(sessions);
        let list = self.drop_parts(list.split_inclusive('\n').collect());
        self.drop_words(list)
    }
}
