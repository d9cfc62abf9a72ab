//! The product's third generation pair: refusals in their order, f8's result at the front of lent
//! octets.
//! Follows document 02, item 2.

use crate::bits::{of_number, of_octets, to_number, Bits};
use crate::lent::{put, short};
use crate::pair;
use crate::refusals::{bad_key, first, KEY, LENGTH, NONE, RANGE, ROOM, SIZE};

const LAST_BEARER: u8 = 31;
const MOST_BITS: u32 = 20_000;

/// The numbers handed to f8, in the types of the product's call.
#[derive(Clone, Copy)]
pub struct F8Inputs {
    pub count: u32,
    pub bearer: u8,
    pub direction: u8,
}

/// The numbers handed to f9, in the types of the product's call.
#[derive(Clone, Copy)]
pub struct F9Inputs {
    pub count: u32,
    pub fresh: u32,
    pub direction: u8,
}

pub fn f8(inputs: F8Inputs, key: &[u8], message: &[u8], bits: u32, output: &mut [u8]) -> u8 {
    let F8Inputs { count, bearer, direction } = inputs;
    let refusal = first(&[
        (KEY, bad_key(key)),
        (RANGE, bearer > LAST_BEARER || direction > 1),
        (SIZE, bad_size(bits)),
        (LENGTH, short(message, bits.into())),
        (ROOM, short(output, bits.into())),
    ]);
    if refusal == NONE {
        let (count, bearer) = (of_number(count.into(), 32), of_number(bearer.into(), 5));
        let direction = of_number(direction.into(), 1);
        let message = taken(message, bits);
        put(&pair::f8(&of_octets(key), &count, &bearer, &direction, &message), output);
    }
    refusal
}

/// The code, or 0 where it is refused.
pub fn f9(inputs: F9Inputs, key: &[u8], message: &[u8], bits: u32) -> (u8, u32) {
    match code(inputs, key, message, bits) {
        Ok(code) => (NONE, to_number(&code) as u32),
        Err(refusal) => (refusal, 0),
    }
}

/// Whether a code is that of the message; a refused check answers no.
pub fn check_code(
    inputs: F9Inputs,
    key: &[u8],
    message: &[u8],
    bits: u32,
    given: u32,
) -> (u8, bool) {
    match code(inputs, key, message, bits) {
        Ok(code) => (NONE, code == of_number(given.into(), 32)),
        Err(refusal) => (refusal, false),
    }
}

/// The bits of the code, or the refusal.
fn code(inputs: F9Inputs, key: &[u8], message: &[u8], bits: u32) -> Result<Bits, u8> {
    let F9Inputs { count, fresh, direction } = inputs;
    let refusal = first(&[
        (KEY, bad_key(key)),
        (RANGE, direction > 1),
        (SIZE, bad_size(bits)),
        (LENGTH, short(message, bits.into())),
    ]);
    if refusal != NONE {
        return Err(refusal);
    }
    let (count, fresh) = (of_number(count.into(), 32), of_number(fresh.into(), 32));
    let direction = of_number(direction.into(), 1);
    Ok(pair::f9(&of_octets(key), &count, &fresh, &direction, &taken(message, bits)))
}

fn bad_size(bits: u32) -> bool {
    bits == 0 || bits > MOST_BITS
}

/// The bits of a message that a call takes; its other bits are ignored.
fn taken(message: &[u8], bits: u32) -> Bits {
    of_octets(message).into_iter().take(bits as usize).collect()
}

#[cfg(test)]
mod tests {
    use super::*;

    const F8: F8Inputs = F8Inputs { count: 1, bearer: 31, direction: 1 };
    const F9: F9Inputs = F9Inputs { count: 1, fresh: 2, direction: 1 };

    #[test]
    fn spare_bits_are_ignored_and_written_as_zero_and_octets_past_the_result_kept() {
        let (mut clean, mut dirty) = ([0xAA; 4], [0xAA; 4]);
        assert_eq!(f8(F8, &[5; 16], &[0x12, 0x80], 9, &mut clean), NONE);
        assert_eq!(f8(F8, &[5; 16], &[0x12, 0xFF, 0xFF], 9, &mut dirty), NONE);
        assert_eq!(clean, dirty);
        assert_eq!((clean[1] & 0x7F, &clean[2..]), (0, &[0xAA, 0xAA][..]));
        let codes = [[0x12, 0x80, 0], [0x12, 0xFF, 0xFF], [0x12, 0x00, 0]]
            .map(|message| f9(F9, &[5; 16], &message, 9));
        assert_eq!((codes[0].0, codes[0]), (NONE, codes[1]));
        assert_ne!(codes[0], codes[2]);
    }

    #[test]
    fn a_key_has_16_octets_and_8_will_not_do() {
        for octets in 0..40 {
            let key = vec![7; octets];
            let expected = if octets == 16 { NONE } else { KEY };
            assert_eq!(f8(F8, &key, &[9], 8, &mut [0]), expected);
            assert_eq!(f9(F9, &key, &[9], 8).0, expected);
            assert_eq!(check_code(F9, &key, &[9], 8, 0).0, expected);
        }
    }

    #[test]
    fn a_message_has_1_to_20000_bits() {
        let (message, mut output) = ([0x5A; 2501], [0xAA; 2501]);
        for (bits, expected) in
            [(0, SIZE), (1, NONE), (20_000, NONE), (20_001, SIZE), (u32::MAX, SIZE)]
        {
            assert_eq!(f8(F8, &[7; 16], &message, bits, &mut output), expected);
            assert_eq!(f9(F9, &[7; 16], &message, bits).0, expected);
        }
        assert_eq!(output[2500], 0xAA);
        assert_eq!(f8(F8, &[7; 16], &message[..2500], 20_000, &mut output), NONE);
        assert_eq!(f8(F8, &[7; 16], &message[..2499], 20_000, &mut output), LENGTH);
        assert_eq!(f8(F8, &[7; 16], &message, 20_000, &mut output[..2499]), ROOM);
        assert_eq!(f8(F8, &[7; 16], &message[..2499], 20_000, &mut output[..2499]), LENGTH);
    }

    #[test]
    fn a_check_is_right_for_one_code_and_a_refused_one_for_none() {
        let (_, code) = f9(F9, &[7; 16], b"felduxa", 55);
        assert_eq!(check_code(F9, &[7; 16], b"felduxa", 55, code), (NONE, true));
        for place in 0..32 {
            let wrong = code ^ 1 << place;
            assert_eq!(check_code(F9, &[7; 16], b"felduxa", 55, wrong), (NONE, false));
        }
        assert_eq!(f9(F9, &[7; 16], b"felduxa", 57), (LENGTH, 0));
        assert_eq!(check_code(F9, &[7; 16], b"felduxa", 57, 0), (LENGTH, false));
    }
}
