//! What is written beside the answers, where it is asked for (docs/CALLS.md).

#[derive(Debug, Clone, Copy, PartialEq, Default)]
pub struct Flags {
    /// Each gap on a line of its own.
    pub gaps: bool,
    /// Before each answer the number of its call's line.
    pub numbered: bool,
}

pub const NONE: Flags = Flags {
    gaps: false,
    numbered: false,
};
pub const BOTH: Flags = Flags {
    gaps: true,
    numbered: true,
};

impl Flags {
    /// In any order; None for a word that is none.
    pub fn read(words: &[&str]) -> Option<Self> {
        let one = |flags: Self, word: &&str| match *word {
            "--gaps" => Some(Self {
                gaps: true,
                ..flags
            }),
            "--numbered" => Some(Self {
                numbered: true,
                ..flags
            }),
            _ => None,
        };
        words.iter().try_fold(NONE, one)
    }

    pub fn words(self) -> Vec<&'static str> {
        let words = [(self.gaps, "--gaps"), (self.numbered, "--numbered")];
        words.iter().filter(|w| w.0).map(|w| w.1).collect()
    }
}

/// A line of answers as the number before it, if it has one, and the rest: no answer begins with a digit.
pub fn unnumbered(line: &str) -> (Option<usize>, &str) {
    match line.split_once(": ") {
        Some((n, answer)) if n.bytes().all(|b| b.is_ascii_digit()) => (n.parse().ok(), answer),
        _ => (None, line),
    }
}
