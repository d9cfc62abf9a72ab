//! The product's ciphers and keystreams, and the key that they take: refusals in their order,
//! results at the front of lent octets.
//! Follows document 01, "KGCORE and the three keystreams" and "Refusal numbers", and document 02,
//! item 1.

use crate::bits::{of_number, of_octets, to_number, to_octets, Bits};
use crate::kasumi;
use crate::keystreams::{self, ECSD_BLOCK_BITS, GSM_BLOCK_BITS};
use crate::kgcore::{self, Inputs};
use crate::lent::{put, short};
use crate::refusals::{bad_key, first, KEY, NONE, RANGE, ROOM, SIZE};

const LAST_COUNT: u32 = 4_194_303;
const LAST_CB: u8 = 31;
const MOST_BITS: u32 = 524_288;
const MOST_OCTETS: u32 = 65_536;

/// The numbers handed to KGCORE, in the types of the product's call.
pub struct Numbers {
    pub ca: u8,
    pub cb: u8,
    pub cc: u32,
    pub cd: u8,
    pub ce: u16,
    pub cl: u32,
}

/// The 16 octets that a key yields, or zeros where it is refused.
pub fn prepare_key(key: &[u8]) -> (u8, [u8; 16]) {
    match keystreams::ck(&of_octets(key)) {
        Some(ck) => (NONE, to_octets(&ck).try_into().expect("CK has 128 bits")),
        None => (KEY, [0; 16]),
    }
}

pub fn kasumi(key: &[u8], block: u64) -> (u8, u64) {
    let refusal = first(&[(KEY, bad_key(key))]);
    if refusal != NONE {
        return (refusal, 0);
    }
    let ciphered = kasumi::kasumi(&of_octets(key), &of_number(block, 64));
    (NONE, to_number(&ciphered))
}

pub fn kgcore(key: &[u8], numbers: &Numbers, output: &mut [u8]) -> u8 {
    let &Numbers { ca, cb, cc, cd, ce, cl } = numbers;
    let refusal = first(&[
        (KEY, bad_key(key)),
        (RANGE, cb > LAST_CB || cd > 1),
        (SIZE, cl == 0 || cl > MOST_BITS),
        (ROOM, short(output, cl.into())),
    ]);
    if refusal == NONE {
        let co = kgcore::kgcore(&Inputs {
            ca: of_number(ca.into(), 8),
            cb: of_number(cb.into(), 5),
            cc: of_number(cc.into(), 32),
            cd: of_number(cd.into(), 1),
            ce: of_number(ce.into(), 16),
            ck: of_octets(key),
            cl: cl as usize,
        });
        put(&co, output);
    }
    refusal
}

pub fn gsm(key: &[u8], count: u32, block1: &mut [u8], block2: &mut [u8]) -> u8 {
    a5(keystreams::gsm, GSM_BLOCK_BITS, key, count, [block1, block2])
}

pub fn ecsd(key: &[u8], count: u32, block1: &mut [u8], block2: &mut [u8]) -> u8 {
    a5(keystreams::ecsd, ECSD_BLOCK_BITS, key, count, [block1, block2])
}

fn a5(
    keystream: fn(&[bool], &[bool]) -> [Bits; 2],
    block_bits: usize,
    key: &[u8],
    count: u32,
    lent: [&mut [u8]; 2],
) -> u8 {
    let (key_refusal, key) = prepare_key(key);
    let refusal = first(&[
        (KEY, key_refusal != NONE),
        (RANGE, count > LAST_COUNT),
        (ROOM, lent.iter().any(|buffer| short(buffer, block_bits as u64))),
    ]);
    if refusal == NONE {
        let blocks = keystream(&of_octets(&key), &of_number(count.into(), 22));
        for (block, buffer) in blocks.iter().zip(lent) {
            put(block, buffer);
        }
    }
    refusal
}

pub fn gea4(key: &[u8], input: u32, direction: u8, m: u32, output: &mut [u8]) -> u8 {
    let (key_refusal, key) = prepare_key(key);
    let refusal = first(&[
        (KEY, key_refusal != NONE),
        (RANGE, direction > 1),
        (SIZE, m == 0 || m > MOST_OCTETS),
        (ROOM, short(output, 8 * u64::from(m))),
    ]);
    if refusal == NONE {
        let input = of_number(input.into(), 32);
        let direction = of_number(direction.into(), 1);
        put(&keystreams::gea4(&of_octets(&key), &input, &direction, m as usize), output);
    }
    refusal
}

#[cfg(test)]
mod tests {
    use super::*;

    #[test]
    fn a_short_second_block_leaves_both_as_they_were() {
        let (mut block1, mut block2) = ([0xAA; 15], [0xAA; 14]);
        assert_eq!(gsm(&[0; 16], 0, &mut block1, &mut block2), ROOM);
        assert_eq!((block1, block2), ([0xAA; 15], [0xAA; 14]));
    }

    #[test]
    fn a_key_of_16_octets_yields_itself_and_one_of_8_itself_twice() {
        let key = std::array::from_fn(|place| place as u8);
        assert_eq!(prepare_key(&key), (NONE, key));
        let twice = [1, 2, 3, 4, 5, 6, 7, 8, 1, 2, 3, 4, 5, 6, 7, 8];
        assert_eq!(prepare_key(&[1, 2, 3, 4, 5, 6, 7, 8]), (NONE, twice));
        for octets in (0..40).filter(|octets| ![8, 16].contains(octets)) {
            assert_eq!(prepare_key(&vec![7; octets]), (KEY, [0; 16]));
        }
    }

    #[test]
    fn kasumi_and_kgcore_take_16_octets_alone() {
        let numbers = Numbers { ca: 1, cb: 2, cc: 3, cd: 0, ce: 4, cl: 8 };
        for octets in 0..40 {
            let key = vec![7; octets];
            let expected = if octets == 16 { NONE } else { KEY };
            assert_eq!(kasumi(&key, 9).0, expected);
            assert_eq!(kgcore(&key, &numbers, &mut [0]), expected);
        }
    }

    #[test]
    fn a_size_above_the_largest_is_named_before_a_short_output() {
        let mut output = vec![0; 65_537];
        assert_eq!(gea4(&[0; 16], 0, 0, 65_537, &mut output), SIZE);
        assert_eq!(gea4(&[0; 16], 0, 0, 65_537, &mut output[..65_536]), SIZE);
        assert_eq!(gea4(&[0; 16], 0, 0, 65_536, &mut output[..65_535]), ROOM);
    }
}
