//! Discovery: manta's own discovery.rs.
use crate::cases::ran::{lent, word, Ran, Ran::*};
use crate::hpsdr::discovery::{
    discovery_request_p2, parse_reply, DiscoveryProtocol, DiscoveryStatus,
};

/// A reply over the front of its octets; Protocol 1 tells no receivers.
fn reply(p: &[u8]) -> Ran {
    let Some(r) = parse_reply(p) else {
        return Word("r:18".into());
    };
    let protocol = match r.protocol {
        DiscoveryProtocol::P1 => 1,
        DiscoveryProtocol::P2 => 2,
    };
    let status = match r.status {
        DiscoveryStatus::Available => 2,
        DiscoveryStatus::InUse => 3,
    };
    assert_eq!(r.receivers.is_some(), protocol == 2);
    let mut p = p.to_vec();
    p[..5].copy_from_slice(&[
        protocol,
        status,
        r.board_id,
        r.firmware,
        r.receivers.unwrap_or(0),
    ]);
    p[5..11].copy_from_slice(&r.mac);
    word(&p)
}

pub fn run(name: &str, _: &[u64], p: &[u8]) -> Option<Ran> {
    Some(match name {
        "discovery_request" | "request_left" => lent(&discovery_request_p2(), p),
        "parse_reply" => reply(p),
        _ => return None,
    })
}
