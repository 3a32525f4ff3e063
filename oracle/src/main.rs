//! The Rust itself as the judge: manta's own files (build.rs), with a clock and a socket that follow a script.
mod calls;
mod cases;
mod clock;
mod compare;
mod errors;
mod generate;
mod lists;
mod local_bind;
mod octets;
mod radio;
mod random;
mod rates;
mod script;
mod socket;
mod socket2;
mod vectors;

include!(concat!(env!("OUT_DIR"), "/manta.rs"));

const USAGE: &str = "oracle/run check FOLDER      every test, of the repository in FOLDER
oracle/run cases FILE        a text of cases, judged by the Rust
oracle/run calls [--gaps] [--numbered] FILE
                             a list of calls, answered by the Rust (docs/CALLS.md)
oracle/run lists FOLDER      the lists in FOLDER, against the answers beside them
oracle/run write FOLDER      the answers of the lists in FOLDER, anew
oracle/run generate SEED CALLS    a random list of at least so many calls
oracle/run vectors           cases whose expected values are the Rust's
oracle/run compare PROGRAM FOLDER SEED CALLS
                             the lists of the repository in FOLDER and random ones of at least so many calls, answered by
                             PROGRAM (its last argument names the list) and by the Rust";

/// With one char an octet.
fn text(path: impl AsRef<std::path::Path>) -> String {
    let path = path.as_ref();
    let octets = std::fs::read(path).unwrap_or_else(|e| panic!("{}: {e}", path.display()));
    octets::text(&octets)
}

/// Runs all, also where one fails.
fn check(top: &str) -> bool {
    let cases = cases::run(&text(format!("{top}/crates/cases/stdin")));
    let errors = errors::lines(&text(format!("{top}/lists/errors.txt")));
    let outside = errors::lists(&text(format!("{top}/oracle/no_counterpart.txt")));
    let lists = lists::check(&format!("{top}/lists"));
    let octets = errors::octets();
    let limits = errors::limits();
    let packets = radio::trials::check();
    let random = generate::check();
    cases && errors && outside && lists && octets && limits && packets && random
}

fn usage() -> bool {
    eprintln!("{USAGE}");
    false
}

fn calls(flags: &[&str], file: &str) -> bool {
    let Some(flags) = calls::flags::Flags::read(flags) else {
        return usage();
    };
    let out = std::io::BufWriter::new(std::io::stdout().lock());
    calls::list::run(&text(file), flags, out).fine
}

fn main() {
    let args: Vec<String> = std::env::args().skip(1).collect();
    let args: Vec<&str> = args.iter().map(String::as_str).collect();
    let number = |word: &str| {
        word.parse()
            .unwrap_or_else(|_| panic!("{word} is no number"))
    };
    let mut fine = true;
    match args[..] {
        ["check", folder] => fine = check(folder),
        ["cases", file] => fine = cases::run(&text(file)),
        ["lists", folder] => fine = lists::check(folder),
        ["calls", ref flags @ .., file] => fine = calls(flags, file),
        ["write", folder] => lists::write(folder),
        ["vectors"] => vectors::run(),
        ["compare", program, folder, seed, n] => {
            fine = compare::run(program, folder, number(seed), number(n) as usize)
        }
        ["generate", seed, n] => print!("{}", generate::text(number(seed), number(n))),
        _ => fine = usage(),
    }
    std::process::exit(if fine { 0 } else { 1 });
}
