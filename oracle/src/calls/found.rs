//! How an error names what stands where reading a line stopped (docs/CALLS.md, Errors).

/// So many octets of a word are told.
const MOST: usize = 40;
const BYTE_ORDER_MARK: &str = "\u{ef}\u{bb}\u{bf}";

/// The backslash stands for octets that don't print, so it is told as one.
fn octet(c: char) -> String {
    match c {
        '!'..='~' if c != '\\' => c.to_string(),
        _ => format!("\\x{:02x}", c as u32),
    }
}

fn quoted(word: &str) -> String {
    let told: String = word.chars().take(MOST).map(octet).collect();
    let more = word.chars().nth(MOST).map_or("", |_| "..");
    format!("'{told}'{more}")
}

/// What was expected, and the word that stands there instead, None at the line's end.
pub fn expected(what: &str, word: Option<&str>) -> String {
    let found = match word {
        None => "the end of the line".into(),
        Some(w) if w.starts_with(BYTE_ORDER_MARK) => "a byte order mark".into(),
        Some(w) => quoted(w),
    };
    format!("{what}, found {found}")
}
