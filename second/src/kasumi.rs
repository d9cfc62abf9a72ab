//! The block cipher KASUMI on lists of bits.
//! Follows 3GPP TS 35.202: clause 3 (the rounds), clause 4 (components and key schedule).

use crate::bits::{and, of_number, or, rotated, xor, Bits};
use crate::gates::{S7, S9};

/// The constants C1 to C8 of the key schedule.
const C: [u64; 8] = [0x0123, 0x4567, 0x89AB, 0xCDEF, 0xFEDC, 0xBA98, 0x7654, 0x3210];

/// The subkeys of one round, 16 bits each; KL[0] is the standard's KL1.
pub struct RoundKeys {
    pub kl: [Bits; 2],
    pub ko: [Bits; 3],
    pub ki: [Bits; 3],
}

/// A function FI: 16 bits to 16 bits, under a key of 16.
pub type Fi<'a> = &'a dyn Fn(&[bool], &[bool]) -> Bits;

/// KASUMI of a 64-bit block under a 128-bit key.
pub fn kasumi(key: &[bool], block: &[bool]) -> Bits {
    rounds(&fi, &key_schedule(key), block)
}

/// The rounds under these keys, by a function FI.
pub fn rounds(fi: Fi, schedule: &[RoundKeys], block: &[bool]) -> Bits {
    let mut left = block[..32].to_vec();
    let mut right = block[32..].to_vec();
    for (round, keys) in (1..).zip(schedule) {
        let changed = if round % 2 == 1 {
            fo(fi, &fl(&left, keys), keys)
        } else {
            fl(&fo(fi, &left, keys), keys)
        };
        (left, right) = (xor(&right, &changed), left);
    }
    [left, right].concat()
}

/// The subkeys of rounds 1 to 8.
pub fn key_schedule(key: &[bool]) -> Vec<RoundKeys> {
    let word = |number: usize| &key[16 * number..][..16];
    let primed = |number: usize| xor(word(number), &of_number(C[number], 16));
    (0..8)
        .map(|round| {
            let ahead = |places: usize| (round + places) % 8;
            RoundKeys {
                kl: [rotated(word(round), 1), primed(ahead(2))],
                ko: [
                    rotated(word(ahead(1)), 5),
                    rotated(word(ahead(5)), 8),
                    rotated(word(ahead(6)), 13),
                ],
                ki: [primed(ahead(4)), primed(ahead(3)), primed(ahead(7))],
            }
        })
        .collect()
}

/// FL, 32 bits to 32 bits.
fn fl(input: &[bool], keys: &RoundKeys) -> Bits {
    let (left, right) = input.split_at(16);
    let right = xor(right, &rotated(&and(left, &keys.kl[0]), 1));
    let left = xor(left, &rotated(&or(&right, &keys.kl[1]), 1));
    [left, right].concat()
}

/// FO, 32 bits to 32 bits, in three steps.
fn fo(fi: Fi, input: &[bool], keys: &RoundKeys) -> Bits {
    let mut left = input[..16].to_vec();
    let mut right = input[16..].to_vec();
    for (ko, ki) in keys.ko.iter().zip(&keys.ki) {
        let mixed = xor(&fi(&xor(&left, ko), ki), &right);
        (left, right) = (right, mixed);
    }
    [left, right].concat()
}

/// FI, 16 bits to 16 bits, over halves of nine and seven bits.
fn fi(input: &[bool], ki: &[bool]) -> Bits {
    let (left, right) = input.split_at(9);
    let (ki1, ki2) = ki.split_at(7);

    let nine = xor(&S9.apply(left), &zero_extended(right));
    let seven = xor(&S7.apply(right), truncated(&nine));

    let nine = xor(&nine, ki2);
    let seven = xor(&seven, ki1);

    let nine = xor(&S9.apply(&nine), &zero_extended(&seven));
    let seven = xor(&S7.apply(&seven), truncated(&nine));
    [seven, nine].concat()
}

/// ZE: seven bits to nine, by two zero bits at the most significant end.
fn zero_extended(seven: &[bool]) -> Bits {
    [&[false, false], seven].concat()
}

/// TR: nine bits to seven, without the two most significant.
fn truncated(nine: &[bool]) -> &[bool] {
    &nine[2..]
}

#[cfg(test)]
mod tests {
    use super::*;
    use crate::bits::of_octets;

    #[test]
    fn test_set_1_of_ts_35_203() {
        let key = of_number(0x2BD6459F82C5B300, 64);
        let key = [key, of_number(0x952C49104881FF48, 64)].concat();
        let block = of_number(0xEA024714AD5C4D84, 64);
        assert_eq!(kasumi(&key, &block), of_number(0xDF1F9B251C0BF45F, 64));
    }

    #[test]
    fn two_blocks_never_meet_under_one_key() {
        let key = of_octets(&[0x5A; 16]);
        let blocks: std::collections::BTreeSet<Bits> =
            (0..100).map(|block| kasumi(&key, &of_number(block, 64))).collect();
        assert_eq!(blocks.len(), 100);
    }
}
