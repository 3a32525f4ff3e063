//! What a session of the Rust's holds, as text.
use super::*;
use std::fmt::Debug;

/// A field of what can only be read as debug text: `Some(x)` as x, `None` as none.
pub fn field(value: &impl Debug, name: &str) -> String {
    let text = format!("{value:?}");
    let (_, rest) = text.split_once(&format!(" {name}: ")).unwrap();
    let word = rest.split([',', ' ']).next().unwrap();
    match word.strip_prefix("Some(") {
        Some(x) => x.trim_end_matches(')').to_string(),
        None => word.to_lowercase(),
    }
}

fn yes(debug: String) -> &'static str {
    match debug.as_str() {
        "true" => "yes",
        "false" => "no",
        _ => panic!("{debug}"),
    }
}

fn or_none<T: Debug>(x: Option<T>) -> String {
    x.map_or("none".into(), |x| format!("{x:?}"))
}

/// What the session holds, as docs/CALLS.md has it.
pub fn text(s: &Session) -> String {
    let s = &s.source;
    let window = s
        .parked
        .map(|p| format!("{:?} {} {}", p.from, p.accounted, p.left));
    let [general, rx, tx, high] = s.seq;
    let attenuation = s.attenuation.as_ref().map(|a| {
        let c = &a.controller;
        let times = ["run_start", "last_overload", "quiet_since"].map(|name| field(c, name));
        format!(
            "{} run {} overload {} quiet {}",
            c.db(),
            times[0],
            times[1],
            times[2]
        )
    });
    format!(
        "state expected {} stale {} waiting {} anchor {} valid {:?} accepted {:?} taken {:?} window {} missing {} \
         discontinuity {} malformed {} delivering {} stalled {} counts {general} {rx} {tx} {high} clocks {:?} {:?} {:?} \
         attenuation {}",
        field(&s.tracker, "expected"),
        field(&s.tracker, "stale_run"),
        s.queue.len() - s.queue_pos,
        or_none(s.wait_entered),
        s.last_valid_iq,
        s.last_accepted_iq,
        s.read_returned,
        window.unwrap_or("none".into()),
        or_none(s.pending_missing),
        or_none(s.pending_discontinuity),
        s.consecutive_malformed,
        yes(field(&s.stall, "delivering")),
        yes(field(&s.stall, "pending")),
        s.last_general,
        s.last_rx_tx_specific,
        s.last_high_priority,
        attenuation.unwrap_or("off".into()),
    )
}
