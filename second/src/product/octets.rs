//! The product's bit strings in octets.
//! Follows document 01, "KGCORE and the three keystreams" and "Refusal numbers".

use crate::bits::{of_number, of_octets, to_octets, xor as xor_bits, Bits};
use crate::lent::{put, short};
use crate::refusals::{first, NONE, ROOM};

/// The `length` bits from bit `start` of the source; bits past its end are zero.
pub fn cut(source: &[u8], start: u32, length: u32, output: &mut [u8]) -> u8 {
    let refusal = first(&[(ROOM, short(output, length.into()))]);
    if refusal == NONE {
        let beyond = std::iter::repeat(false);
        let bits = of_octets(source).into_iter().skip(start as usize).chain(beyond);
        put(&bits.take(length as usize).collect::<Bits>(), output);
    }
    refusal
}

/// The octets that hold so many bits.
pub fn size(bits: u32) -> u32 {
    bits.div_ceil(8)
}

/// The octet with all but its first `count` bits cleared.
pub fn first_bits(octet: u8, count: u32) -> u8 {
    let kept: Bits = of_number(octet.into(), 8).into_iter().take(count as usize).collect();
    to_octets(&kept).first().copied().unwrap_or(0)
}

/// The octet at a place, or 0 past the end.
pub fn octet_or_zero(source: &[u8], place: usize) -> u8 {
    source.get(place).copied().unwrap_or(0)
}

/// The octets of `one` xor those of `other`, whose missing octets read as 0.
pub fn xor(one: &[u8], other: &[u8], output: &mut [u8]) -> u8 {
    let one = of_octets(one);
    let refusal = first(&[(ROOM, short(output, one.len() as u64))]);
    if refusal == NONE {
        let beyond = std::iter::repeat(false);
        let other: Bits = of_octets(other).into_iter().chain(beyond).take(one.len()).collect();
        put(&xor_bits(&one, &other), output);
    }
    refusal
}

#[cfg(test)]
mod tests {
    use super::*;

    #[test]
    fn octets_past_the_result_are_kept() {
        let mut output = [0xAA; 3];
        assert_eq!(cut(&[0xFF], 4, 9, &mut output), NONE);
        assert_eq!(output, [0xF0, 0x00, 0xAA]);
    }

    #[test]
    fn the_cut_of_any_length_ends() {
        assert_eq!(cut(&[0xFF], u32::MAX, u32::MAX, &mut [0; 8]), ROOM);
        assert_eq!(cut(&[0xFF], u32::MAX, 0, &mut []), NONE);
    }

    #[test]
    fn the_first_bits_are_the_highest() {
        let kept = [0, 1, 7, 8, 9, u32::MAX].map(|count| first_bits(0xFF, count));
        assert_eq!(kept, [0x00, 0x80, 0xFE, 0xFF, 0xFF, 0xFF]);
        assert_eq!([0, 1, 8, 9, 114, u32::MAX].map(size), [0, 1, 1, 2, 15, 536_870_912]);
    }

    #[test]
    fn the_first_octets_alone_say_how_many() {
        let mut output = [0xAA; 4];
        assert_eq!(xor(&[0xF0, 0xFF, 0x55], &[0xFF, 0x0F], &mut output), NONE);
        assert_eq!(output, [0x0F, 0xF0, 0x55, 0xAA]);
        assert_eq!(xor(&[1], &[1, 2, 3], &mut output), NONE);
        assert_eq!(output, [0x00, 0xF0, 0x55, 0xAA]);
        assert_eq!(xor(&[1, 2, 3], &[], &mut output[..2]), ROOM);
        assert_eq!(xor(&[], &[7], &mut []), NONE);
        assert_eq!(output, [0x00, 0xF0, 0x55, 0xAA]);
    }
}
