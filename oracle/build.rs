//! Takes manta's files from MANTA_SRC, the folder with its crates/, and changes what ties them to a clock, a socket and the
//! rest of manta, and what the requests ask for (docs/CHANGES.md): exact text for exact text, each as often as it says. wire.rs and
//! discovery.rs stay as they are.
use std::path::{Path, PathBuf};
use std::{env, fs};

/// How often the text stands in the file, the text, and what stands in its place. Lines stay where they are.
type Change = (usize, &'static str, &'static str);

const CLOCK: Change = (
    1,
    "use std::time::{Duration, Instant};",
    "use crate::clock::Instant; use std::time::Duration;",
);

const PROTO2: [Change; 5] = [
    CLOCK,
    (1, "use std::thread;", "use crate::clock as thread;"),
    (1, "use socket2::{", "use crate::socket::{"),
    (
        1,
        "use std::net::{Ipv4Addr, SocketAddr, SocketAddrV4, ToSocketAddrs, UdpSocket};",
        "use crate::socket::UdpSocket; use std::net::{Ipv4Addr, SocketAddr, SocketAddrV4, ToSocketAddrs};",
    ),
    // the file ends in a comment of a module that is left out: another stands there
    (
        1,
        "/// tests (MAN-305 Phase 3/4).\n",
        "/// tests (MAN-305 Phase 3/4).\n#[path = \"{HERE}/src/session/mod.rs\"]\npub mod session;\n",
    ),
];

/// What a request adds to the Rust, at the place that it names. None of this is manta's.
const REQUESTS: [Change; 1] = [
    // 2026-01: port 0, after the centre's two tests and before the port map's
    (
        1,
        "             radio's 122.88 MHz ADC Nyquist limit\"\n        );\n    }\n",
        "             radio's 122.88 MHz ADC Nyquist limit\"\n        );\n    } if cfg.port == 0 { bail!(\"request 2026-01: port 0\"); }\n",
    ),
];

/// The places that ask the clock: src/clock.rs knows each by the function that it stands in.
const ASKS: [(usize, &str); 3] = [
    (11, "Instant::now()"),
    (1, "get_or_insert_with(Instant::now)"),
    (3, ".elapsed()"),
];

/// What proto2 takes from hpsdr.rs, by the line that each begins with.
const HPSDR: [&str; 7] = [
    "pub(crate) const READ_TIMEOUT: Duration = Duration::from_millis(250);",
    "pub(crate) const MAX_CONSECUTIVE_TIMEOUTS: u32 = 40;",
    "pub(crate) const MAX_CONSECUTIVE_MALFORMED: u32 = 10_000;",
    "pub(crate) const RECV_BUF_LEN: usize = 65536;",
    "pub(crate) const INITIAL_BURST_REPEATS: usize = 2;",
    "pub struct GapStats {",
    "pub struct HpsdrConfig {",
];

/// What stands at manta's root, lib.rs.
const ROOT: [&str; 3] = [
    "pub struct InputHealthCounters {",
    "impl InputHealthCounters {",
    "pub trait IqSource {",
];

fn assert_count(name: &str, text: &str, times: usize, part: &str) {
    let found = text.matches(part).count();
    assert_eq!(found, times, "{name} has the text {part:?} {found} times");
}

fn changed(name: &str, text: String, changes: &[Change]) -> String {
    let here = env::var("CARGO_MANIFEST_DIR").unwrap();
    changes.iter().fold(text, |text, (times, old, new)| {
        assert_count(name, &text, *times, old);
        text.replace(old, &new.replace("{HERE}", &here))
    })
}

/// The line, and where it opens a block, the lines to its end; before them the derives that stand above.
fn cut(name: &str, text: &str, first: &str) -> String {
    let lines: Vec<&str> = text.lines().collect();
    let found: Vec<usize> = (0..lines.len()).filter(|&i| lines[i] == first).collect();
    let [at] = found[..] else {
        panic!("{name} has the line {first:?} {} times", found.len());
    };
    let last = match first.ends_with('{') {
        true => (at..).find(|&i| lines[i] == "}").unwrap(),
        false => at,
    };
    let from = match lines[at - 1].starts_with("#[derive(") {
        true => at - 1,
        false => at,
    };
    "#[allow(dead_code)]\n".to_string() + &lines[from..=last].join("\n") + "\n"
}

struct Files {
    manta: PathBuf,
    out: PathBuf,
}

impl Files {
    fn read(&self, name: &str) -> String {
        let path = self.manta.join(name);
        println!("cargo:rerun-if-changed={}", path.display());
        fs::read_to_string(&path).unwrap_or_else(|e| panic!("{}: {e}", path.display()))
    }

    fn write(&self, name: &str, text: String) {
        let path = self.out.join(name);
        fs::create_dir_all(path.parent().unwrap()).unwrap();
        fs::write(path, text).unwrap();
    }

    fn change(&self, name: &str, changes: &[Change]) {
        self.write(name, changed(name, self.read(name), changes));
    }

    fn cuts(&self, name: &str, firsts: &[&str]) -> String {
        let text = self.read(name);
        firsts.iter().map(|first| cut(name, &text, first)).collect()
    }
}

fn main() {
    println!("cargo:rerun-if-env-changed=MANTA_SRC");
    println!("cargo:rerun-if-changed=build.rs");
    let manta = env::var("MANTA_SRC").expect("MANTA_SRC names the folder with manta's crates/");
    let files = Files {
        manta: Path::new(&manta).join("crates/manta-input/src"),
        out: PathBuf::from(env::var("OUT_DIR").unwrap()),
    };
    let proto2 = files.read("hpsdr/proto2/mod.rs");
    for (times, part) in ASKS {
        assert_count("proto2/mod.rs", &proto2, times, part);
    }
    files.change("hpsdr/proto2/mod.rs", &[&PROTO2[..], &REQUESTS].concat());
    files.change("hpsdr/proto2/attenuator.rs", &[CLOCK]);
    files.change("stall.rs", &[CLOCK]);
    files.change("hpsdr/proto2/wire.rs", &[]);
    files.change("hpsdr/discovery.rs", &[]);
    let out = files.out.display();
    let root = files.cuts("lib.rs", &ROOT);
    let hpsdr = files.cuts("hpsdr.rs", &HPSDR);
    let text = format!(
        "use anyhow::Result;\nuse num_complex::Complex32;\n{root}\
         #[allow(dead_code)]\n#[path = \"{out}/stall.rs\"]\nmod stall;\n\
         #[allow(dead_code)]\nmod hpsdr {{\n\
         use proto2::attenuator::AutoAttenuation;\nuse std::sync::Arc;\nuse std::time::Duration;\n{hpsdr}\
         #[path = \"{out}/hpsdr/discovery.rs\"]\npub mod discovery;\n\
         #[path = \"{out}/hpsdr/proto2/mod.rs\"]\npub mod proto2;\n}}\n"
    );
    files.write("manta.rs", text);
}
