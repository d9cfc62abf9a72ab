//! Lent octets: whether a result has room in them, and the result at their front.
//! Follows document 01, "Refusal numbers": no other octet of a lent buffer changes.

use crate::bits::to_octets;

/// Whether a lent buffer has too few octets for so many bits.
pub fn short(lent: &[u8], bits: u64) -> bool {
    (lent.len() as u64) < bits.div_ceil(8)
}

/// Octets of a lent buffer past the result are kept.
pub fn put(bits: &[bool], lent: &mut [u8]) {
    let octets = to_octets(bits);
    lent[..octets.len()].copy_from_slice(&octets);
}
