//! Lists that go wrong: lines that can't be read (lists/errors.txt), and what the Rust can't be asked (no_counterpart.txt).
mod limits;
mod octets;

use crate::calls::flags;
use crate::lists::answered;
pub use limits::too_many_waiting;

/// A list, and how it is told: all of it, or its end.
struct Written {
    name: String,
    list: String,
    told: String,
}

/// A file's entries: what is tried, and how it is told.
fn entries(text: &str) -> Vec<(&str, &str)> {
    text.lines().filter_map(|l| l.split_once(" => ")).collect()
}

/// A line is tried as the second of a list, with a call behind.
fn of_line(line: &str) -> String {
    format!("open\n{line}\nbegin 0\n")
}

/// It is told after the answer to the first line, with nothing behind.
fn told_of_line(expected: &str) -> String {
    format!("opened\nerror line 2: expected {expected}\n")
}

fn of_lines(lines: &str) -> String {
    lines.replace("; ", "\n")
}

fn told(list: &str) -> String {
    answered(list, flags::NONE).0
}

fn check(what: &str, written: &[Written], is_told: fn(&str, &str) -> bool) -> bool {
    let differs = |w: &&Written| !is_told(&told(&w.list), &w.told);
    let differ: Vec<_> = written.iter().filter(differs).collect();
    for w in &differ {
        println!("not told: {}", w.name);
    }
    println!(
        "{} {what}, {} not told as they should be",
        written.len(),
        differ.len()
    );
    differ.is_empty() && !written.is_empty()
}

fn of_errors(text: &str) -> Vec<Written> {
    let written = |(line, expected): (&str, &str)| Written {
        name: line.into(),
        list: of_line(line),
        told: told_of_line(expected),
    };
    entries(text).into_iter().map(written).collect()
}

fn of_no_counterpart(text: &str) -> Vec<Written> {
    let written = |(list, end): (&str, &str)| Written {
        name: list.into(),
        list: of_lines(list),
        told: format!("error line {end}\n"),
    };
    entries(text).into_iter().map(written).collect()
}

pub fn lines(text: &str) -> bool {
    let what = "lines that can't be read";
    check(what, &of_errors(text), |told, all| told == all)
}

/// Each is a list, whose answers end so.
pub fn lists(text: &str) -> bool {
    let what = "lists that the Rust can't be asked";
    check(what, &of_no_counterpart(text), |told, last| {
        told.split_inclusive('\n').next_back() == Some(last)
    })
}

/// What a text file can't show.
pub fn octets() -> bool {
    let what = "lists of octets that don't print, and of long words";
    check(what, &octets::written(), |told, all| told == all)
}

/// What is as long as it may be, and what is too long.
pub fn limits() -> bool {
    let what = "lists at their limits";
    check(what, &limits::written(), |told, end| told.ends_with(end))
}

/// Every list above, by what it tries.
pub fn all(lines: &str, lists: &str) -> Vec<(String, String)> {
    let all = [
        of_errors(lines),
        of_no_counterpart(lists),
        octets::written(),
        limits::written(),
    ];
    let name = |w: Written| (w.name, w.list);
    all.into_iter().flatten().map(name).collect()
}
