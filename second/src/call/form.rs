//! The fields that lines of the program `call` are made of, and what an answer shows.

use crate::lines::{based, hex, octets};

const MOST_OCTETS: usize = 2560;
const LARGEST_ROOM: usize = 65_600;

/// What a lent octet holds before the call, so that a kept octet shows.
const UNTOUCHED: u8 = 0xAA;

/// Pairs of hex digits, or `-` for no octets.
pub fn octets_field(field: &[u8]) -> Option<Vec<u8>> {
    match field {
        b"-" => Some(Vec::new()),
        b"" => None,
        digits => octets(digits).filter(|octets| octets.len() <= MOST_OCTETS),
    }
}

/// One to ten decimal digits, or `0x` and 1 to 16 hex digits; its type bounds it.
pub fn number<Number: TryFrom<u64>>(field: &[u8]) -> Option<Number> {
    match field.strip_prefix(b"0x") {
        Some(digits) if digits.len() <= 16 => based(digits, 16),
        None if field.len() <= 10 => based(field, 10),
        _ => None,
    }
}

/// A number of octets, at most as large as a room.
pub fn size(field: &[u8]) -> Option<usize> {
    number(field).filter(|&size| size <= LARGEST_ROOM)
}

/// A lent buffer of the size that a field gives.
pub fn lent(room: &[u8]) -> Option<Vec<u8>> {
    Some(vec![UNTOUCHED; size(room)?])
}

/// Octets as capital hex, or `-` for none.
pub fn shown(octets: &[u8]) -> String {
    if octets.is_empty() {
        "-".to_string()
    } else {
        hex(octets)
    }
}

/// A refusal, then every octet of each lent buffer.
pub fn handed_out(refusal: u8, buffers: &[Vec<u8>]) -> String {
    let buffers = buffers.iter().map(|buffer| format!(" {}", shown(buffer)));
    [refusal.to_string()].into_iter().chain(buffers).collect()
}
