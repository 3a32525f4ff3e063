//! A program over the proved session against the Rust: the same lists of calls, answer by answer.
mod forms;
mod program;
mod shrink;

use crate::calls::call::Call;
use crate::calls::flags::{self, unnumbered, Flags};
use crate::calls::parse;
use crate::lists::{answered, difference};
use crate::random::Random;
use crate::{errors, generate, lists, text};
use program::{Program, TIME};
use shrink::Shrinking;
use std::time::{Duration, Instant};

/// A random list's calls: what it and its answers take is what memory and disk hold at a time.
const PIECE: usize = 50_000;
/// After so many calls it is told how far the comparison has come.
const TOLD: usize = 1_000_000;
/// How long a list is made smaller.
const SHRINKING: Duration = Duration::from_secs(60);

struct Comparison {
    program: Program,
    lists: usize,
    calls: usize,
    sessions: usize,
    stretches: usize,
    differ: usize,
    /// One that differs was made smaller.
    shrunk: bool,
}

/// Where the answers differ, and what each answers there.
struct Difference {
    answer: usize,
    rust: String,
    ours: String,
}

impl Difference {
    fn print(&self) {
        let Self { answer, rust, ours } = self;
        println!("answer {answer}\n  of the Rust:    {rust}\n  of the program: {ours}");
    }
}

/// The session, as a list of its own, that the Rust's n-th answer belongs to: of a list that it answers, it refuses an open
/// and nothing else.
fn session_of(list: &str, answers: &str, n: usize) -> String {
    let opens = |answer: &&str| *answer == "opened" || answer.starts_with("refused ");
    let answers = answers.lines().take(n);
    let k = answers.map(|l| unnumbered(l).1).filter(opens).count();
    let mut opened = 0;
    let of_session = list.lines().filter(|line| match parse::line(line) {
        Ok(Some(call)) => {
            opened += matches!(call, Call::Open(_)) as usize;
            opened == k
        }
        _ => false,
    });
    of_session.map(|line| format!("{line}\n")).collect()
}

impl Comparison {
    fn difference(rust: &str, ours: &str) -> Option<Difference> {
        let answer = difference(rust, ours)?;
        let at = |text: &str| match text.split_inclusive('\n').nth(answer - 1) {
            Some(line) => match line.strip_suffix('\n') {
                Some(line) => line.to_string(),
                None => format!("{line} (and no newline)"),
            },
            None => "(no more)".into(),
        };
        Some(Difference {
            answer,
            rust: at(rust),
            ours: at(ours),
        })
    }

    /// A list that the Rust answers to its end, and the program otherwise.
    fn shown(&self, list: &str, flags: Flags) -> Option<Difference> {
        let (rust, ran) = answered(list, flags);
        if !ran.fine {
            return None;
        }
        Self::difference(&rust, &self.program.start(list, flags).answers(true)?)
    }

    /// Prints both answers, and the smallest list that is found to show a difference: of the session where it was seen if that
    /// shows one, else of the whole list.
    fn shrink(&self, list: &str, flags: Flags, rust: &str, first: &Difference) {
        first.print();
        let session = session_of(list, rust, first.answer);
        let mut starts = [session.as_str(), list].into_iter();
        let Some(start) = starts.find(|l| self.shown(l, flags).is_some()) else {
            println!("run once more, the two don't differ");
            return;
        };
        let shrinking = Shrinking {
            shows: |l: &str| self.shown(l, flags).is_some(),
            end: Instant::now() + SHRINKING,
        };
        let small = shrinking.smallest(start);
        println!("the smallest list found that shows it:\n\n{small}");
        if let Some(difference) = self.shown(&small, flags) {
            difference.print();
        }
    }

    /// What the program answers, None where it has not ended.
    fn ended(name: &str, answers: Option<String>) -> Option<String> {
        if answers.is_none() {
            let time = TIME.as_secs();
            println!("{name}: the program has not ended after {time} s");
        }
        answers
    }

    /// Compares one list. The first that differs is made smaller; of the others it is told which. None where the program has
    /// not ended: nothing is compared after it.
    fn list(&mut self, name: &str, list: &str, flags: Flags) -> Option<()> {
        let name = [&[name], &flags.words()[..]].concat().join(" ");
        let running = self.program.start(list, flags);
        let (rust, ran) = answered(list, flags);
        let ours = Self::ended(&name, running.answers(ran.fine))?;
        if ran.outside {
            return Some(());
        }
        self.lists += 1;
        self.calls += ran.calls;
        self.sessions += ran.sessions;
        self.stretches += ran.stretches;
        if let Some(difference) = Self::difference(&rust, &ours) {
            self.differ += 1;
            println!("{name}: answer {} differs", difference.answer);
            if !ran.fine {
                difference.print();
            } else if !self.shrunk {
                self.shrunk = true;
                self.shrink(list, flags, &rust, &difference);
            }
        }
        Some(())
    }

    /// A list that the Rust can't be asked, against answers worked out by hand.
    fn written(&mut self, name: &str, list: &str, expected: &str) -> Option<()> {
        let running = self.program.start(list, flags::NONE);
        let ours = Self::ended(name, running.answers(true))?;
        if let Some(Difference { answer, rust, ours }) = Self::difference(expected, &ours) {
            self.differ += 1;
            println!("{name}: answer {answer}\n  by hand:        {rust}\n  of the program: {ours}");
        }
        self.lists += 1;
        Some(())
    }

    /// At least so many calls, of lists that a seed gives.
    fn random(&mut self, seed: u64, calls: usize) -> Option<()> {
        let (from, mut next) = (self.calls, TOLD);
        for piece in seed * 1_000_000.. {
            let made = self.calls - from;
            if made >= calls {
                break;
            }
            if made >= next {
                next += TOLD;
                println!("{made} random calls, {} lists differ", self.differ);
            }
            let most = PIECE.min(calls - made) as u64;
            let list = generate::text(piece, most);
            let name = format!("oracle/run generate {piece} {most}");
            // every second has its words in other forms, and every second of these is asked with all flags
            match piece % 4 {
                0 | 2 => self.list(&name, &list, flags::NONE)?,
                n => {
                    let other = forms::other(&mut Random::new(piece), &list);
                    let name = name + ", its words in other forms";
                    let flags = if n == 3 { flags::BOTH } else { flags::NONE };
                    self.list(&name, &other, flags)?
                }
            }
        }
        Some(())
    }

    /// The lists of the repository in a folder, with no flags and with all, and the lines that can't be read.
    fn stored(&mut self, top: &str) -> Option<()> {
        for path in lists::lists(&format!("{top}/lists")) {
            for flags in [flags::NONE, flags::BOTH] {
                self.list(&path.display().to_string(), &text(&path), flags)?;
            }
        }
        let lines = text(format!("{top}/lists/errors.txt"));
        let outside = text(format!("{top}/oracle/no_counterpart.txt"));
        for (name, list) in errors::all(&lines, &outside) {
            self.list(&name, &list, flags::NONE)?;
        }
        let (list, expected) = errors::too_many_waiting();
        self.written("more waiting numbers than 01 allows", &list, &expected)
    }
}

/// The repository's lists, and random ones of at least so many calls from a seed.
pub fn run(program: &str, top: &str, seed: u64, calls: usize) -> bool {
    let mut c = Comparison {
        program: Program::new(program),
        lists: 0,
        calls: 0,
        sessions: 0,
        stretches: 0,
        differ: 0,
        shrunk: false,
    };
    let stored = c.stored(top);
    let before = c.calls;
    let ended = stored.and_then(|()| c.random(seed, calls));
    println!(
        "{} calls, {} of them random from seed {seed}, in {} sessions with {} stretches, compared with the Rust: {} lists of {} differ",
        c.calls, c.calls - before, c.sessions, c.stretches, c.differ, c.lists
    );
    ended.is_some() && c.differ == 0
}
