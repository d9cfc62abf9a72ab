//! KGCORE the ordinary way, a block of 64 bits after the other, and two of its uses: A5/4 for GSM and GEA4.
//! Follows source document 004, clauses 4 (KGCORE), 5.3 (GSM) and 7.3 (GEA4).

use super::kasumi::Kasumi;
use super::Boxes;

/// The blocks of KGCORE for a first register, under a key.
pub fn blocks<'boxes, B: Boxes>(
    boxes: &'boxes B,
    key: &[u8; 16],
    register: u64,
) -> impl Iterator<Item = u64> + 'boxes {
    let a = Kasumi::new(boxes, &key.map(|octet| octet ^ 0x55)).cipher(register);
    let kasumi = Kasumi::new(boxes, key);
    let mut block = 0;
    (0..).map(move |counter| {
        block = kasumi.cipher(a ^ counter ^ block);
        block
    })
}

/// The first M octets of KGCORE for a first register, under a key.
fn kgcore<B: Boxes>(boxes: &B, key: &[u8; 16], register: u64, m: usize) -> Vec<u8> {
    let mut output = Vec::with_capacity(m + 8);
    for block in blocks(boxes, key, register).take(m.div_ceil(8)) {
        output.extend_from_slice(&block.to_be_bytes());
    }
    output.truncate(m);
    output
}

/// The M output octets of GEA4.
pub fn gea4<B: Boxes>(boxes: &B, key: &[u8; 16], input: u32, direction: bool, m: usize) -> Vec<u8> {
    let register = u64::from(input) << 32 | u64::from(direction) << 26 | 0xFF << 16;
    kgcore(boxes, key, register, m)
}

/// BLOCK1 and BLOCK2 of A5/4 for GSM, 114 bits each.
pub fn gsm<B: Boxes>(boxes: &B, key: &[u8; 16], count: u32) -> [[u8; 15]; 2] {
    let stream = kgcore(boxes, key, u64::from(count) << 32 | 0x0F << 16, 29);
    let mut block1: [u8; 15] = std::array::from_fn(|place| stream[place]);
    // bit 114 is bit 2 of octet 14
    let mut block2: [u8; 15] = std::array::from_fn(|place| {
        stream[14 + place] << 2 | stream.get(15 + place).map_or(0, |next| next >> 6)
    });
    block1[14] &= 0xC0;
    block2[14] &= 0xC0;
    [block1, block2]
}

#[cfg(test)]
mod tests {
    use super::*;
    use crate::bits::{of_number, of_octets, to_octets};
    use crate::fast::Tables;
    use crate::keystreams;
    use crate::random::Random;

    #[test]
    fn fast_gea4_equals_the_plain_one() {
        let tables = Tables::of_equations();
        let mut random = Random::seeded(2);
        for m in [1, 7, 8, 9, 64, 129, 2100] {
            let key: [u8; 16] = std::array::from_fn(|_| random.octet());
            let (input, direction) = (random.number() as u32, random.below(2) == 1);
            let input_bits = of_number(input.into(), 32);
            let plain = keystreams::gea4(&of_octets(&key), &input_bits, &[direction], m);
            assert_eq!(gea4(&tables, &key, input, direction, m), to_octets(&plain));
        }
    }

    #[test]
    fn fast_gsm_equals_the_plain_one() {
        let tables = Tables::of_equations();
        let mut random = Random::seeded(3);
        for _ in 0..20 {
            let key: [u8; 16] = std::array::from_fn(|_| random.octet());
            let count = random.number() as u32 % (1 << 22);
            let plain = keystreams::gsm(&of_octets(&key), &of_number(count.into(), 22));
            let fast = gsm(&tables, &key, count);
            assert_eq!(fast.map(|block| block.to_vec()), plain.map(|block| to_octets(&block)));
        }
    }
}
