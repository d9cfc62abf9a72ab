//! What the product's rounds of KASUMI are lent, and the rounds by it. A word is two octets here, the
//! higher first.
//! Follows 3GPP TS 35.202, clause 4 (FI in two halves; the key schedule).

use crate::bits::{of_number, of_octets, rotated, to_number, to_octets, xor, Bits};
use crate::gates::{S7, S9};
use crate::kasumi::{key_schedule, rounds, RoundKeys};
use crate::refusals::{bad_key, first, KEY, NONE};

/// Half of FI makes of nine bits and seven bits nine and seven others: S9 of the nine xor the
/// seven, and S7 of the seven xor the lowest seven of what that gave. The table has what the nine
/// bits put into both, then what the seven put into both.
pub fn fi_table() -> Vec<u8> {
    let nines = (0..512).map(|input| {
        let nine = S9.apply(&of_number(input, 9));
        [&nine[..], &nine[2..]].concat()
    });
    let sevens = (0..128).map(|input| {
        let seven = of_number(input, 7);
        [of_number(input, 9), xor(&S7.apply(&seven), &seven)].concat()
    });
    nines.chain(sevens).flat_map(|entry: Bits| to_octets(&entry)).collect()
}

pub fn round_keys(key: &[u8]) -> (u8, Vec<u8>) {
    let refusal = first(&[(KEY, bad_key(key))]);
    if refusal != NONE {
        return (refusal, vec![0; 128]);
    }
    let words = key_schedule(&of_octets(key))
        .into_iter()
        .flat_map(|RoundKeys { kl, ko, ki }| kl.into_iter().chain(ko).chain(ki));
    (NONE, words.flat_map(|word| to_octets(&word)).collect())
}

/// The eight rounds of a block by any table of 640 words and any 64 words of keys.
pub fn cipher_block(table: &[u8], keys: &[u8], block: u64) -> u64 {
    let entry = |place: u64| of_octets(&table[2 * place as usize..][..2]);
    let half = |bits: &[bool]| {
        let (nine, seven) = bits.split_at(9);
        xor(&entry(to_number(nine)), &entry(512 + to_number(seven)))
    };
    let fi = |input: &[bool], ki: &[bool]| rotated(&half(&xor(&half(input), &rotated(ki, 7))), 9);
    let word = |place: usize| of_octets(&keys[2 * place..][..2]);
    let schedule: Vec<RoundKeys> = (0..64)
        .step_by(8)
        .map(|place| RoundKeys {
            kl: [word(place), word(place + 1)],
            ko: [word(place + 2), word(place + 3), word(place + 4)],
            ki: [word(place + 5), word(place + 6), word(place + 7)],
        })
        .collect();
    to_number(&rounds(&fi, &schedule, &of_number(block, 64)))
}

#[cfg(test)]
mod tests {
    use super::*;
    use crate::product::ciphers;
    use crate::random::Random;

    #[test]
    fn by_the_table_and_the_round_keys_it_is_kasumi() {
        let table = fi_table();
        assert_eq!(table.len(), 1280);
        let mut random = Random::seeded(11);
        for _ in 0..100 {
            let key: [u8; 16] = std::array::from_fn(|_| random.octet());
            let block = random.number();
            let (refusal, keys) = round_keys(&key);
            let ciphered = cipher_block(&table, &keys, block);
            assert_eq!((refusal, ciphered), ciphers::kasumi(&key, block));
        }
    }

    #[test]
    fn every_entry_and_every_word_counts() {
        let (table, (_, keys)) = (fi_table(), round_keys(&[0x5A; 16]));
        let answers = |table: &[u8], keys: &[u8]| -> Vec<u64> {
            let mut random = Random::seeded(13);
            (0..64).map(|_| cipher_block(table, keys, random.number())).collect()
        };
        let right = answers(&table, &keys);
        for place in (0..table.len()).step_by(16) {
            let mut wrong = table.clone();
            wrong[place] ^= 1;
            assert_ne!(answers(&wrong, &keys), right, "entry {}", place / 2);
        }
        for place in 0..keys.len() {
            let mut wrong = keys.clone();
            wrong[place] ^= 1;
            assert_ne!(answers(&table, &wrong), right, "word {}", place / 2);
        }
    }
}
