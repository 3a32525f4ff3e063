//! A program that answers the list of calls in the file that its last argument names, after its flags.
use crate::calls::flags::Flags;
use crate::octets;
use std::io::Read;
use std::path::PathBuf;
use std::process::{Child, Command, Stdio};
use std::sync::mpsc::{channel, Receiver};
use std::time::Duration;

/// How long one list may take, and how many octets of answers are read.
pub const TIME: Duration = Duration::from_secs(60);
const MOST: u64 = 1 << 26;

pub struct Program {
    path: String,
    /// Each list stands here in turn.
    list: PathBuf,
}

/// A program that runs, and what it writes, once it has written all.
pub struct Running {
    child: Child,
    written: Receiver<Vec<u8>>,
}

impl Program {
    pub fn new(path: &str) -> Self {
        let list = format!("compare-{}.calls", std::process::id());
        Self {
            path: path.into(),
            list: std::env::temp_dir().join(list),
        }
    }

    pub fn start(&self, list: &str, flags: Flags) -> Running {
        std::fs::write(&self.list, octets::octets(list))
            .unwrap_or_else(|e| panic!("{}: {e}", self.list.display()));
        let mut child = Command::new(&self.path)
            .args(flags.words())
            .arg(&self.list)
            .stdin(Stdio::null())
            .stdout(Stdio::piped())
            .stderr(Stdio::null())
            .spawn()
            .unwrap_or_else(|e| panic!("{}: {e}", self.path));
        let out = child.stdout.take().unwrap();
        let (send, written) = channel();
        // a program that writes while nobody reads would wait for ever
        std::thread::spawn(move || {
            let mut octets = vec![];
            out.take(MOST).read_to_end(&mut octets).ok();
            send.send(octets).ok();
        });
        Running { child, written }
    }
}

impl Drop for Program {
    fn drop(&mut self) {
        std::fs::remove_file(&self.list).ok();
    }
}

impl Running {
    /// What it wrote, and a line more where it did not end as a program does that has answered: with 0, or after an error with
    /// any status. None where it has not ended in time.
    pub fn answers(mut self, fine: bool) -> Option<String> {
        let Ok(octets) = self.written.recv_timeout(TIME) else {
            self.child.kill().ok();
            self.child.wait().ok();
            return None;
        };
        let status = self.child.wait().unwrap();
        let mut text = octets::text(&octets);
        if !(status.success() || !fine && status.code().is_some()) {
            text += &format!("(it ended: {status})\n");
        }
        Some(text)
    }
}
