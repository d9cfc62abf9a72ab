//! The product's AES: refusals in their order, the result at the front of lent octets. A word is
//! four octets here, the highest first.
//! Follows FIPS 197 and document 02, item 7.

use crate::aes::{self, Word, WORDS};
use crate::bits::of_octets;
use crate::lent::{put, short};
use crate::refusals::{bad_key, first, KEY, LENGTH, NONE, ROOM};

/// The octets that hold the words of an expanded key.
pub const WORD_OCTETS: usize = 4 * WORDS;

pub fn aes(key: &[u8], block: &[u8], output: &mut [u8]) -> u8 {
    let refusal =
        first(&[(KEY, bad_key(key)), (LENGTH, block.len() != 16), (ROOM, short(output, 128))]);
    if refusal == NONE {
        put(&of_octets(&aes::aes(&sixteen(key), &sixteen(block))), output);
    }
    refusal
}

/// The words, or zeros where the key is refused.
pub fn expand_key(key: &[u8]) -> (u8, Vec<u8>) {
    let refusal = first(&[(KEY, bad_key(key))]);
    if refusal != NONE {
        return (refusal, vec![0; WORD_OCTETS]);
    }
    (NONE, aes::key_expansion(&sixteen(key)).concat())
}

/// A block of 16 octets by any 44 words.
pub fn encrypt_block(words: &[u8], block: &[u8]) -> [u8; 16] {
    let word = |place: usize| -> Word { std::array::from_fn(|octet| words[4 * place + octet]) };
    aes::cipher(&std::array::from_fn(word), &sixteen(block))
}

fn sixteen(octets: &[u8]) -> [u8; 16] {
    octets.try_into().expect("a call that is not refused has 16 octets here")
}

#[cfg(test)]
mod tests {
    use super::*;
    use crate::random::Random;

    #[test]
    fn by_the_words_of_its_key_it_is_aes() {
        let mut random = Random::seeded(42);
        for _ in 0..20 {
            let mut some = || -> [u8; 16] { std::array::from_fn(|_| random.octet()) };
            let (key, block, mut output) = (some(), some(), [0xAA; 17]);
            let (refusal, words) = expand_key(&key);
            assert_eq!((refusal, words.len()), (NONE, 176));
            assert_eq!(aes(&key, &block, &mut output), NONE);
            assert_eq!((&output[..16], output[16]), (&encrypt_block(&words, &block)[..], 0xAA));
        }
    }

    #[test]
    fn every_word_counts() {
        let (_, words) = expand_key(&[0x5A; 16]);
        let right = encrypt_block(&words, &[0xC3; 16]);
        for place in 0..WORD_OCTETS {
            let mut wrong = words.clone();
            wrong[place] ^= 1;
            assert_ne!(encrypt_block(&wrong, &[0xC3; 16]), right, "octet {place}");
        }
    }

    #[test]
    fn key_and_block_have_16_octets() {
        for octets in 0..40 {
            let (given, mut output) = (vec![7; octets], [0xAA; 16]);
            let right = octets == 16;
            assert_eq!(aes(&given, &[7; 16], &mut output) == KEY, !right);
            assert_eq!(aes(&[7; 16], &given, &mut output) == LENGTH, !right);
            assert_eq!(expand_key(&given).0 == KEY, !right);
        }
        let mut output = [0xAA; 15];
        assert_eq!(aes(&[7; 16], &[7; 16], &mut output), ROOM);
        assert_eq!(output, [0xAA; 15]);
        assert_eq!(expand_key(&[7; 8]), (KEY, vec![0; 176]));
    }
}
