//! Lists that a text file can't show, or not well: octets that don't print, byte order marks, words as long as one is told.
use super::{of_line, told_of_line, Written};
use crate::octets::text;

/// The second line of a list, and what is expected and found there.
const LINES: [(&[u8], &str); 24] = [
    (b"\x00", r"a call, found '\x00'"),
    (b"open\x00", r"a call, found 'open\x00'"),
    (b"begin \x80", r"a reading, found '\x80'"),
    (b"begin 1\xff", r"a reading, found '1\xff'"),
    (b"begin \xc3\xa9", r"a reading, found '\xc3\xa9'"),
    (b"begin \x7f", r"a reading, found '\x7f'"),
    (b"begin !~'\"", r#"a reading, found '!~'"'"#),
    (b"beg\\in 1", r"a call, found 'beg\x5cin'"),
    (b"begin \\x00", r"a reading, found '\x5cx00'"),
    // separators are the space, the tab and the carriage return, and no other
    (b"begin\t1\tx", "the end of the line, found 'x'"),
    (b"begin 1\rx\r", "the end of the line, found 'x'"),
    (b"begin\r", "a reading, found the end of the line"),
    (b"begin\x0b1", r"a call, found 'begin\x0b1'"),
    (b"begin\x0c1", r"a call, found 'begin\x0c1'"),
    (b"begin 1\xa0", r"a reading, found '1\xa0'"),
    (b"begin 1\x85", r"a reading, found '1\x85'"),
    // the comment is cut before the words are told
    (b"begin x#\x00", "a reading, found 'x'"),
    (b"begin #1", "a reading, found the end of the line"),
    (b"open at=\x01", r"a value of at, found 'at=\x01'"),
    (b"open \x01=1", r"a setting, found '\x01=1'"),
    // a byte order mark is the three octets at a word's beginning
    (b"begin \xef\xbb\xbf1", "a reading, found a byte order mark"),
    (
        b"begin 1 \xef\xbb\xbf",
        "the end of the line, found a byte order mark",
    ),
    (b"begin \xef\xbb", r"a reading, found '\xef\xbb'"),
    (b"begin 1\xef\xbb\xbf", r"a reading, found '1\xef\xbb\xbf'"),
];

/// A list, and all that is told of it.
const LISTS: [(&[u8], &str); 7] = [
    (
        b"\xef\xbb\xbfopen\nstate\n",
        "error line 1: expected a call, found a byte order mark\n",
    ),
    (
        b"\xef\xbb\xbf\nopen\n",
        "error line 1: expected a call, found a byte order mark\n",
    ),
    (
        b"\xef\xbb\xbf",
        "error line 1: expected a call, found a byte order mark\n",
    ),
    (
        b"\xef\xbb\xbf# a comment\nopen\n",
        "error line 1: expected a call, found a byte order mark\n",
    ),
    (b"\x00", "error line 1: expected a call, found '\\x00'\n"),
    (
        b"\n# \x00\xff\xef\xbb\xbf\n\r\n\tmissing\r\n",
        "error line 4: expected open, found 'missing'\n",
    ),
    (
        b"open#\x80\nmissing#\x00\nbegin",
        "opened\nmissing none\nerror line 3: expected a reading, found the end of the line\n",
    ),
];

/// So many octets of a word are told.
fn long() -> [(String, String); 5] {
    let a = |n| "a".repeat(n);
    [
        (a(40), format!("a call, found '{}'", a(40))),
        (a(41), format!("a call, found '{}'..", a(40))),
        (
            "\0".repeat(41),
            format!("a call, found '{}'..", "\\x00".repeat(40)),
        ),
        (
            format!("open rate={}", a(35)),
            format!("a value of rate, found 'rate={}'", a(35)),
        ),
        (
            format!("open rate={}", a(90_000)),
            format!("a value of rate, found 'rate={}'..", a(35)),
        ),
    ]
}

/// A line's octets as a name that prints.
fn name(list: &str) -> String {
    list.chars()
        .take(60)
        .flat_map(char::escape_default)
        .collect()
}

pub fn written() -> Vec<Written> {
    let line = |line: &str, expected: &str| Written {
        name: name(line),
        list: of_line(line),
        told: told_of_line(expected),
    };
    let list = |list: &str, told: &str| Written {
        name: name(list),
        list: list.into(),
        told: told.into(),
    };
    let lines = LINES.iter().map(|(l, told)| line(&text(l), told));
    let long = long().into_iter().map(|(l, told)| line(&l, &told));
    let lists = LISTS.iter().map(|(l, told)| list(&text(l), told));
    lines.chain(long).chain(lists).collect()
}
