//! A5/4 for GSM, A5/4 for ECSD and GEA4, each as a use of KGCORE, and the key CK that KGCORE takes.
//! Follows source document 004, clauses 5.3, 6.3 and 7.3, and document 02, item 1.

use crate::bits::{of_number, zeros, Bits};
use crate::kgcore::{kgcore, Inputs};

pub const GSM_BLOCK_BITS: usize = 114;
pub const ECSD_BLOCK_BITS: usize = 348;

/// CK: the bits of Kc, over and over, until 128 are filled. Kc has 64 bits (A5/3, GEA3) or 128.
pub fn ck(kc: &[bool]) -> Option<Bits> {
    [64, 128].contains(&kc.len()).then(|| kc.iter().copied().cycle().take(128).collect())
}

/// BLOCK1 and BLOCK2 of GSM for a key of 128 bits and a COUNT of 22.
pub fn gsm(key: &[bool], count: &[bool]) -> [Bits; 2] {
    a5(key, count, 0b0000_1111, GSM_BLOCK_BITS)
}

/// BLOCK1 and BLOCK2 of ECSD for a key of 128 bits and a COUNT of 22.
pub fn ecsd(key: &[bool], count: &[bool]) -> [Bits; 2] {
    a5(key, count, 0b1111_0000, ECSD_BLOCK_BITS)
}

/// The M output octets of GEA4, as bits, for an INPUT of 32 bits and a DIRECTION of one.
pub fn gea4(key: &[bool], input: &[bool], direction: &[bool], m: usize) -> Bits {
    kgcore(&Inputs {
        ca: of_number(0b1111_1111, 8),
        cb: zeros(5),
        cc: input.to_vec(),
        cd: direction.to_vec(),
        ce: zeros(16),
        ck: key.to_vec(),
        cl: 8 * m,
    })
}

fn a5(key: &[bool], count: &[bool], ca: u64, block_bits: usize) -> [Bits; 2] {
    let co = kgcore(&Inputs {
        ca: of_number(ca, 8),
        cb: zeros(5),
        cc: [&zeros(10), count].concat(),
        cd: zeros(1),
        ce: zeros(16),
        ck: key.to_vec(),
        cl: 2 * block_bits,
    });
    let (block1, block2) = co.split_at(block_bits);
    [block1.to_vec(), block2.to_vec()]
}
