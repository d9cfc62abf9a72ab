//! KASUMI the ordinary way: a block is a number of 64 bits, and the round keys are prepared once a key.
//! Follows 3GPP TS 35.202: clause 3 (the rounds), clause 4 (components and key schedule).

use super::Boxes;

/// The constants C1 to C8 of the key schedule.
const C: [u16; 8] = [0x0123, 0x4567, 0x89AB, 0xCDEF, 0xFEDC, 0xBA98, 0x7654, 0x3210];

struct RoundKeys {
    kl: [u16; 2],
    ko: [u16; 3],
    ki: [u16; 3],
}

/// KASUMI under one key.
pub struct Kasumi<'boxes, B> {
    boxes: &'boxes B,
    rounds: [RoundKeys; 8],
}

impl<'boxes, B: Boxes> Kasumi<'boxes, B> {
    pub fn new(boxes: &'boxes B, key: &[u8; 16]) -> Self {
        let word = |number: usize| {
            let octet = 2 * (number % 8);
            u16::from_be_bytes([key[octet], key[octet + 1]])
        };
        let primed = |number: usize| word(number) ^ C[number % 8];
        let rounds = std::array::from_fn(|round| RoundKeys {
            kl: [word(round).rotate_left(1), primed(round + 2)],
            ko: [
                word(round + 1).rotate_left(5),
                word(round + 5).rotate_left(8),
                word(round + 6).rotate_left(13),
            ],
            ki: [primed(round + 4), primed(round + 3), primed(round + 7)],
        });
        Kasumi { boxes, rounds }
    }

    pub fn cipher(&self, block: u64) -> u64 {
        let (mut left, mut right) = ((block >> 32) as u32, block as u32);
        for pair in self.rounds.chunks_exact(2) {
            right ^= self.fo(fl(left, &pair[0]), &pair[0]);
            left ^= fl(self.fo(right, &pair[1]), &pair[1]);
        }
        u64::from(left) << 32 | u64::from(right)
    }

    fn fo(&self, input: u32, keys: &RoundKeys) -> u32 {
        let (mut left, mut right) = halves(input);
        for (ko, ki) in keys.ko.into_iter().zip(keys.ki) {
            (left, right) = (right, self.fi(left ^ ko, ki) ^ right);
        }
        joined(left, right)
    }

    fn fi(&self, input: u16, ki: u16) -> u16 {
        let (nine, seven) = (input >> 7, input & 0x7F);
        let nine = self.boxes.s9(nine) ^ seven;
        let seven = self.boxes.s7(seven) ^ nine & 0x7F ^ ki >> 9;
        let nine = self.boxes.s9(nine ^ ki & 0x1FF) ^ seven;
        let seven = self.boxes.s7(seven) ^ nine & 0x7F;
        seven << 9 | nine
    }
}

fn fl(input: u32, keys: &RoundKeys) -> u32 {
    let (left, right) = halves(input);
    let right = right ^ (left & keys.kl[0]).rotate_left(1);
    let left = left ^ (right | keys.kl[1]).rotate_left(1);
    joined(left, right)
}

fn halves(whole: u32) -> (u16, u16) {
    ((whole >> 16) as u16, whole as u16)
}

fn joined(left: u16, right: u16) -> u32 {
    u32::from(left) << 16 | u32::from(right)
}

#[cfg(test)]
mod tests {
    use super::*;
    use crate::bits::{of_number, of_octets};
    use crate::fast::{Equations, Tables};
    use crate::kasumi;
    use crate::random::Random;

    #[test]
    fn fast_kasumi_equals_the_plain_one() {
        let (tables, equations) = (Tables::of_equations(), Equations::with_table_of_s7());
        let mut random = Random::seeded(1);
        for _ in 0..100 {
            let key: [u8; 16] = std::array::from_fn(|_| random.octet());
            let block = random.number();
            let plain = kasumi::kasumi(&of_octets(&key), &of_number(block, 64));
            let by_tables = Kasumi::new(&tables, &key).cipher(block);
            let by_equations = Kasumi::new(&equations, &key).cipher(block);
            assert_eq!(of_number(by_tables, 64), plain);
            assert_eq!(of_number(by_equations, 64), plain);
        }
    }
}
