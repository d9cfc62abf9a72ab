//! f8 and f9 the ordinary way, block by block: the padded string of f9 is never whole.
//! Follows source document 004, annex A (f8), and 3GPP TS 35.201 (f9).

use super::kasumi::Kasumi;
use super::keystreams::blocks;
use super::Boxes;
use crate::product::pair::{F8Inputs, F9Inputs};

/// The first `bits` bits of a message enciphered, in as many octets as hold them.
pub fn f8<B: Boxes>(
    boxes: &B,
    key: &[u8; 16],
    inputs: F8Inputs,
    message: &[u8],
    bits: usize,
) -> Vec<u8> {
    let F8Inputs { count, bearer, direction } = inputs;
    let register = u64::from(count) << 32 | u64::from(bearer) << 27 | u64::from(direction) << 26;
    let mut output = message[..bits.div_ceil(8)].to_vec();
    for (octets, block) in output.chunks_mut(8).zip(blocks(boxes, key, register)) {
        for (octet, key_octet) in octets.iter_mut().zip(block.to_be_bytes()) {
            *octet ^= key_octet;
        }
    }
    let spare = 8 * output.len() - bits;
    if let Some(last) = output.last_mut() {
        *last &= 0xFF << spare;
    }
    output
}

/// The code of the first `bits` bits of a message.
pub fn f9<B: Boxes>(
    boxes: &B,
    key: &[u8; 16],
    inputs: F9Inputs,
    message: &[u8],
    bits: usize,
) -> u32 {
    let F9Inputs { count, fresh, direction } = inputs;
    let kasumi = Kasumi::new(boxes, key);
    let (mut a, mut b) = (0, 0);
    let mut take = |block: u64| {
        a = kasumi.cipher(a ^ block);
        b ^= a;
    };
    take(u64::from(count) << 32 | u64::from(fresh));
    let (whole, rest) = message[..bits.div_ceil(8)].split_at(bits / 64 * 8);
    for octets in whole.chunks_exact(8) {
        take(u64::from_be_bytes(octets.try_into().expect("a chunk has eight octets")));
    }
    // The bits that are left, DIRECTION and a 1; after 63 bits the 1 begins a block of its own.
    let left = bits % 64;
    let mut octets = [0; 8];
    octets[..rest.len()].copy_from_slice(rest);
    let kept = u64::from_be_bytes(octets) & !(u64::MAX >> left);
    let ending = u128::from(kept) << 64 | u128::from(direction << 1 | 1) << (126 - left);
    take((ending >> 64) as u64);
    if left == 63 {
        take(ending as u64);
    }
    (Kasumi::new(boxes, &key.map(|octet| octet ^ 0xAA)).cipher(b) >> 32) as u32
}

#[cfg(test)]
mod tests {
    use super::*;
    use crate::fast::{Equations, Tables};
    use crate::product::pair;
    use crate::random::Random;
    use crate::refusals::NONE;

    /// Calls of f8 and f9 over lengths around the ends of octets and of blocks, with any message.
    fn each_length(call: impl Fn(&mut Random, &[u8; 16], &[u8], u32)) {
        let mut random = Random::seeded(4);
        for bits in (1..=200).chain([1_000, 12_160, 19_999, 20_000]) {
            let key = std::array::from_fn(|_| random.octet());
            let message: Vec<u8> = (0..bits / 8 + 3).map(|_| random.octet()).collect();
            call(&mut random, &key, &message, bits);
        }
    }

    #[test]
    fn fast_f8_equals_the_plain_one() {
        let (tables, equations) = (Tables::of_equations(), Equations::with_table_of_s7());
        each_length(|random, key, message, bits| {
            let (count, bearer) = (random.number() as u32, random.below(32) as u8);
            let inputs = F8Inputs { count, bearer, direction: random.below(2) as u8 };
            let mut plain = vec![0xAA; bits.div_ceil(8) as usize];
            assert_eq!(pair::f8(inputs, key, message, bits, &mut plain), NONE);
            assert_eq!(f8(&tables, key, inputs, message, bits as usize), plain);
            assert_eq!(f8(&equations, key, inputs, message, bits as usize), plain);
        });
    }

    #[test]
    fn fast_f9_equals_the_plain_one() {
        let (tables, equations) = (Tables::of_equations(), Equations::with_table_of_s7());
        each_length(|random, key, message, bits| {
            let (count, fresh) = (random.number() as u32, random.number() as u32);
            let inputs = F9Inputs { count, fresh, direction: random.below(2) as u8 };
            let plain = pair::f9(inputs, key, message, bits);
            assert_eq!((NONE, f9(&tables, key, inputs, message, bits as usize)), plain);
            assert_eq!((NONE, f9(&equations, key, inputs, message, bits as usize)), plain);
        });
    }
}
