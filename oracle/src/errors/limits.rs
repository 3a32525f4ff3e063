//! Lists on either side of each limit: a line's octets, a session's stretches, an arrival's waiting numbers.
use super::Written;

const OCTETS: usize = 100_000;
const STRETCHES: usize = 4096;

/// A session of so many stretches, and a comment.
fn of(stretches: usize, comment: &str) -> String {
    let read = |n: usize| format!("begin 0\npass 0\niq 0 0 {}\ntake 0 476\n", n * 100_000);
    let reads: String = (1..=stretches).map(read).collect();
    format!("open\n{reads}{comment}\nstate\n")
}

/// A comment of so many octets, all of them this one but the first.
fn comment(octet: char, octets: usize) -> String {
    format!("#{}", octet.to_string().repeat(octets - 1))
}

fn counters(gaps: usize) -> String {
    format!("\ncounters dropped 0 gaps {gaps} malformed 0 loss 0\n")
}

fn too_long(line: usize) -> String {
    format!("\nerror line {line}: expected a shorter line, found more than 100000 octets\n")
}

fn at_most() -> Vec<(&'static str, String, String)> {
    let line = 4 * STRETCHES + 4;
    vec![
        (
            "as long as may be",
            of(STRETCHES, &comment('-', OCTETS)),
            counters(STRETCHES - 1),
        ),
        (
            "a line too long",
            of(STRETCHES, &comment('-', OCTETS + 1)),
            too_long(4 * STRETCHES + 2),
        ),
        (
            "a stretch too many",
            of(STRETCHES + 1, &comment('-', OCTETS)),
            format!("\nrestart 0\nerror line {line}: expected fewer stretches, found 4097\n"),
        ),
    ]
}

/// Octets that are no ASCII, each of which counts as one; and a last line with no newline.
fn at_octets() -> Vec<(&'static str, String, String)> {
    let above = |octets| of(1, &comment('\u{80}', octets));
    let last = |octets| format!("open\n{}", comment('-', octets));
    vec![
        ("octets above 127", above(OCTETS), counters(0)),
        ("octets above 127, too many", above(OCTETS + 1), too_long(6)),
        ("a last line", last(OCTETS), counters(0)),
        ("a last line too long", last(OCTETS + 1), too_long(2)),
    ]
}

/// So many waiting numbers of ten digits, no two of which follow each other.
fn scattered(numbers: u32) -> String {
    let number = |i: u32| (4_294_900_000 + 3 * i).to_string();
    (0..numbers).map(number).collect::<Vec<_>>().join(",")
}

/// They wait behind a restart in a window: of number 4294899997, 200 s after number 9.
fn waiting(numbers: u32) -> String {
    let waiting = scattered(numbers);
    format!(
        "open\nbegin 0\npass 0\niq 0 0 9\ntake 0 476\nbegin 200s\npass 200s\n\
         iq 200s 200s 4294899997 waiting={waiting}\ntake 200s 476\ndiscontinuity\n"
    )
}

/// 200 s are 9600000 samples. The restart's own datagram and three for each waiting number, 24577 in all, have 5849326.
const WAITED: &str = "
discontinuity 3750674
stretch 1 at 0 last 0 first 9 highest 9 samples 238 missing 0 restart 0
stretch 2 at 200000000000 last 200000000000 first 4294899997 highest 4294899997 samples 238 missing 0 restart 3750674
total stretches 2 samples 476 missing 0 restart 3750674 handed 476 waiting 0
counters dropped 0 gaps 1 malformed 0 loss 0
";

/// 8193 can be written, and 01 refuses them; more can't.
fn at_waiting() -> Vec<(&'static str, String, String)> {
    let many = "expected a value of waiting, found 'waiting=4294900000,4294900003,4294900006'..";
    vec![
        ("8192 waiting numbers", waiting(8192), WAITED.into()),
        (
            "8193 waiting numbers",
            waiting(8193),
            "\nerror line 8: no counterpart in the Rust: 01 refuses it with 14\n".into(),
        ),
        (
            "8194 waiting numbers",
            waiting(8194),
            format!("\nerror line 8: {many}\n"),
        ),
    ]
}

pub fn written() -> Vec<Written> {
    let written = |(name, list, told): (&str, String, String)| Written {
        name: name.into(),
        list,
        told,
    };
    let all = [at_most(), at_octets(), at_waiting()];
    all.into_iter().flatten().map(written).collect()
}

/// A list that the Rust can't be asked, and its answers by 01: the arrival changes nothing.
pub fn too_many_waiting() -> (String, String) {
    let waiting = scattered(8193);
    let list = format!("open\nbegin 0\npass 0\niq 0 0 1 waiting={waiting}\n");
    let answers = "opened\nbegun\nsent none\nrefused 14\n\
                   total stretches 0 samples 0 missing 0 restart 0 handed 0 waiting 0\n\
                   counters dropped 0 gaps 0 malformed 0 loss 0\n";
    (list, answers.into())
}
