//! The lists of a folder, run through the Rust: each NAME.calls has its answers beside it, in NAME.answers.
use crate::calls::flags::{self, unnumbered, Flags};
use crate::calls::list::{self, Ran};
use crate::calls::parse;
use crate::generate;
use std::path::{Path, PathBuf};

pub fn lists(folder: &str) -> Vec<PathBuf> {
    let entries = std::fs::read_dir(folder).unwrap_or_else(|e| panic!("{folder}: {e}"));
    let is_list = |p: &PathBuf| p.extension().is_some_and(|x| x == "calls");
    let mut paths: Vec<PathBuf> = entries.map(|e| e.unwrap().path()).filter(is_list).collect();
    paths.sort();
    paths
}

pub fn answered(list: &str, flags: Flags) -> (String, Ran) {
    let mut answers = vec![];
    let ran = list::run(list, flags, &mut answers);
    (String::from_utf8(answers).unwrap(), ran)
}

/// The first line in which the two differ, from 1: its end counts as well.
pub fn difference(expected: &str, came: &str) -> Option<usize> {
    let lines = |text| str::split_inclusive(text, '\n');
    let (mut a, mut b) = (lines(expected), lines(came));
    (1..).find_map(|line| match (a.next(), b.next()) {
        (None, None) => Some(None),
        (x, y) if x != y => Some(Some(line)),
        _ => None,
    })?
}

/// Whether a list that says it was made from a seed is the one that comes of it.
fn is_as_made(text: &str) -> bool {
    let made = || {
        let words = text.lines().next()?.strip_prefix(generate::MADE_BY)?;
        let (seed, calls) = words.split_once(' ')?;
        Some(generate::text(
            seed.parse().unwrap(),
            calls.parse().unwrap(),
        ))
    };
    made().is_none_or(|made| made == text)
}

/// Writes the answers of every list anew.
pub fn write(folder: &str) {
    for path in lists(folder) {
        std::fs::write(
            path.with_extension("answers"),
            answered(&crate::text(&path), flags::NONE).0,
        )
        .unwrap();
    }
}

const GAP: &str = "gap stretch ";

/// The comments of a list that are gaps' lines.
fn gaps_beside(list: &str) -> Vec<&str> {
    let comments = list.lines().filter_map(|l| l.split_once("# "));
    let texts = comments.map(|(_, text)| text);
    texts.filter(|text| text.starts_with(GAP)).collect()
}

/// With all flags a list is answered as with none, each answer has the number of its call's line, and the gaps are those that
/// stand beside, where any do.
fn is_same_with_flags(list: &str, answers: &str) -> bool {
    let flagged = answered(list, flags::BOTH).0;
    let is_gap = |line: &&str| line.starts_with(GAP);
    let gaps: Vec<&str> = flagged.lines().filter(is_gap).collect();
    let others = flagged.lines().filter(|l| !is_gap(l)).map(unnumbered);
    let (numbers, texts): (Vec<_>, Vec<_>) = others.unzip();
    let is_call = |line: &str| matches!(parse::line(line), Ok(Some(_)));
    let calls = list.lines().zip(1..).filter(|(l, _)| is_call(l));
    let told = answers.lines().filter(|l| l.starts_with("gap ")).count();
    let beside = gaps_beside(list);
    texts.iter().eq(&answers.lines().collect::<Vec<_>>())
        && numbers.into_iter().flatten().eq(calls.map(|(_, n)| n))
        && gaps.len() == told
        && (beside.is_empty() || beside == gaps)
}

/// What is wrong with a list, if anything is, and how many calls were answered.
fn judged(path: &Path) -> (Option<String>, usize) {
    let list = crate::text(path);
    let (came, ran) = answered(&list, flags::NONE);
    let expected = crate::text(path.with_extension("answers"));
    let wrong = match difference(&expected, &came) {
        Some(line) => {
            let now = came.lines().nth(line - 1).unwrap_or("none");
            Some(format!("answer {line} is now: {now}"))
        }
        None if ran.uneven > 0 => Some("the account doesn't add up".into()),
        None if !is_as_made(&list) => Some("not what its seed gives".into()),
        None if !is_same_with_flags(&list, &came) => Some("other answers with flags".into()),
        None => None,
    };
    (wrong, ran.calls)
}

/// Whether every list is answered as its file has it, with accounts that add up.
pub fn check(folder: &str) -> bool {
    let (mut calls, mut differ) = (0, 0);
    let paths = lists(folder);
    for path in &paths {
        let (wrong, n) = judged(path);
        calls += n;
        if let Some(wrong) = wrong {
            differ += 1;
            println!("{}: {wrong}", path.display());
        }
    }
    let lists = paths.len();
    println!("{lists} lists with {calls} calls run by the Rust, {differ} differ");
    differ == 0 && lists > 0
}
