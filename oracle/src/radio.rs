//! A practice radio (2026-02): it reads command packets by docs/SCOPE.md, Packets and fields, and keeps what each stream's last one
//! sets. It is told what the Rust sends, and has none of the Rust's code.
pub mod trials;

use std::fmt;

/// A stream's packets: their length, the octets that are fixed, and the fields, each by its first octet and how many it has. All
/// other octets are 0.
struct Layout {
    length: usize,
    fixed: &'static [(usize, u8)],
    fields: &'static [(usize, usize)],
}

/// By the offset of the stream's port. The first field is the count.
const LAYOUTS: [Layout; 4] = [
    // and filter enable
    Layout {
        length: 60,
        fixed: &[(37, 8), (38, 1)],
        fields: &[(0, 4), (59, 1)],
    },
    // and ADCs, rate in kHz
    Layout {
        length: 1444,
        fixed: &[(7, 1), (22, 24)],
        fields: &[(0, 4), (4, 1), (18, 2)],
    },
    Layout {
        length: 60,
        fixed: &[(4, 1)],
        fields: &[(0, 4)],
    },
    // and run, the two phase words, Alex1, Alex0, attenuation
    Layout {
        length: 1444,
        fixed: &[],
        fields: &[
            (0, 4),
            (4, 1),
            (9, 4),
            (329, 4),
            (1428, 4),
            (1432, 4),
            (1443, 1),
        ],
    },
];

/// How often 48 kHz may be doubled (2026-03).
const MOST_DOUBLINGS: u32 = 3;

fn is_rate(khz: u64) -> bool {
    (0..=MOST_DOUBLINGS).any(|n| khz == 48 << n)
}

impl Layout {
    /// The fields of a packet, None where its length or an octet that is no field's is wrong.
    fn read(&self, packet: &[u8]) -> Option<Vec<u64>> {
        if packet.len() != self.length {
            return None;
        }
        let mut rest = packet.to_vec();
        let mut values = vec![];
        for &(at, n) in self.fields {
            let octets = &mut rest[at..at + n];
            values.push(octets.iter().fold(0, |v, &x| v * 256 + x as u64));
            octets.fill(0);
        }
        let mut expected = vec![0; self.length];
        for &(at, value) in self.fixed {
            expected[at] = value;
        }
        (rest == expected).then_some(values)
    }
}

/// Whether a stream's fields have values that they can have.
fn can_be(stream: usize, fields: &[u64]) -> bool {
    match (stream, fields) {
        (1, [_, _, rate]) => is_rate(*rate),
        (3, [_, run, rx, tx, _, _, attenuation]) => *run <= 1 && rx == tx && *attenuation <= 31,
        _ => true,
    }
}

/// The fields of each stream's last packet that was accepted, and how many were refused.
pub struct Radio {
    kept: [Vec<u64>; 4],
    refused: u64,
}

impl Default for Radio {
    fn default() -> Self {
        Self {
            kept: LAYOUTS.map(|l| vec![0; l.fields.len()]),
            refused: 0,
        }
    }
}

impl Radio {
    /// A packet to the port plus this offset.
    pub fn hear(&mut self, stream: usize, packet: &[u8]) {
        let fields = LAYOUTS.get(stream).and_then(|l| l.read(packet));
        match fields.filter(|f| can_be(stream, f)) {
            Some(fields) => self.kept[stream] = fields,
            None => self.refused += 1,
        }
    }
}

/// As docs/CALLS.md has it.
impl fmt::Display for Radio {
    fn fmt(&self, f: &mut fmt::Formatter<'_>) -> fmt::Result {
        let [general, receive, transmit, priority] = &self.kept;
        let run = if priority[1] == 1 { "on" } else { "off" };
        write!(f, "radio general {} filters {}", general[0], general[1])?;
        write!(
            f,
            " receive {} adcs {} khz {}",
            receive[0], receive[1], receive[2]
        )?;
        write!(f, " transmit {}", transmit[0])?;
        write!(f, " priority {} run {run}", priority[0])?;
        write!(f, " rxphase {} txphase {}", priority[2], priority[3])?;
        write!(f, " alex1 {} alex0 {}", priority[4], priority[5])?;
        write!(f, " attenuation {} refused {}", priority[6], self.refused)
    }
}
