//! Bit strings as lists of bits, most significant bit first.
//! Follows source document 004, clause 3.2.3 (bit and octet order).

pub type Bits = Vec<bool>;

/// So many zero bits.
pub fn zeros(length: usize) -> Bits {
    vec![false; length]
}

/// The lowest `width` bits of a number.
pub fn of_number(number: u64, width: usize) -> Bits {
    (0..width).rev().map(|place| number >> place & 1 == 1).collect()
}

/// The number that at most 64 bits write.
pub fn to_number(bits: &[bool]) -> u64 {
    bits.iter().fold(0, |number, &bit| number << 1 | u64::from(bit))
}

/// The bits of octets, the highest bit of the first octet first.
pub fn of_octets(octets: &[u8]) -> Bits {
    octets.iter().flat_map(|&octet| of_number(octet.into(), 8)).collect()
}

/// The octets that hold a bit string; the spare bits of the last octet are zero.
pub fn to_octets(bits: &[bool]) -> Vec<u8> {
    bits.chunks(8)
        .map(|chunk| to_number(chunk) << (8 - chunk.len()))
        .map(|octet| octet as u8)
        .collect()
}

pub fn xor(left: &[bool], right: &[bool]) -> Bits {
    bitwise(left, right, |one, other| one ^ other)
}

pub fn and(left: &[bool], right: &[bool]) -> Bits {
    bitwise(left, right, |one, other| one & other)
}

pub fn or(left: &[bool], right: &[bool]) -> Bits {
    bitwise(left, right, |one, other| one | other)
}

/// Rotation to the left.
pub fn rotated(bits: &[bool], places: usize) -> Bits {
    [&bits[places..], &bits[..places]].concat()
}

fn bitwise(left: &[bool], right: &[bool], gate: fn(bool, bool) -> bool) -> Bits {
    // A length that differs is a slip of this program; zip would hide it.
    assert_eq!(left.len(), right.len());
    left.iter().zip(right).map(|(&one, &other)| gate(one, other)).collect()
}

#[cfg(test)]
mod tests {
    use super::*;

    #[test]
    fn octets_and_numbers_keep_the_first_bit_highest() {
        assert_eq!(of_number(0b101, 4), [false, true, false, true]);
        assert_eq!(to_number(&of_octets(&[0x01, 0x23])), 0x0123);
        assert_eq!(to_octets(&of_number(0b1_1000_0001, 9)), [0xC0, 0x80]);
        assert_eq!(to_octets(&[]), []);
    }

    #[test]
    fn rotation_carries_the_first_bits_to_the_end() {
        assert_eq!(rotated(&of_number(0x8001, 16), 1), of_number(0x0003, 16));
        assert_eq!(rotated(&of_number(0x1234, 16), 8), of_number(0x3412, 16));
    }
}
