//! A text with one char an octet: a line's length, and what stands in it, are told of the octets themselves.

pub fn text(octets: &[u8]) -> String {
    octets.iter().map(|&octet| octet as char).collect()
}

pub fn octets(text: &str) -> Vec<u8> {
    let octet = |c: char| u8::try_from(c).unwrap_or_else(|_| panic!("{c:?} is no octet"));
    text.chars().map(octet).collect()
}
