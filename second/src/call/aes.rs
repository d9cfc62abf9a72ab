//! The lines of AES, and lines to try them with: published vectors step by step, lengths, every set of
//! causes, rooms, single words changed, any words, random lines.

use super::form::{handed_out, lent, octets_field, shown};
use super::Subject;
use crate::cases::{key_of, published, spoiled};
use crate::product::aes::{aes, encrypt_block, expand_key, WORD_OCTETS};
use crate::random::Random;
use crate::vectors;

pub const SUBJECT: Subject = Subject {
    forms: &[
        "aes KEY BLOCK ROOM:size -> 0 1 4 5",
        "expand_key KEY -> 0 1",
        "encrypt_block WORDS:words BLOCK:block",
    ],
    answer,
    cases,
};

/// `aes` answers REFUSAL OUTPUT, `expand_key` REFUSAL WORDS, `encrypt_block` the block.
fn answer(fields: &[&[u8]]) -> Option<String> {
    match *fields {
        [b"aes", key, block, room] => {
            let (key, block, mut output) = (octets_field(key)?, octets_field(block)?, lent(room)?);
            let refusal = aes(&key, &block, &mut output);
            Some(handed_out(refusal, &[output]))
        }
        [b"expand_key", key] => {
            let (refusal, words) = expand_key(&octets_field(key)?);
            Some(format!("{refusal} {}", shown(&words)))
        }
        [b"encrypt_block", words, block] => {
            let words = octets_field(words).filter(|words| words.len() == WORD_OCTETS)?;
            let block = octets_field(block).filter(|block| block.len() == 16)?;
            Some(shown(&encrypt_block(&words, &block)))
        }
        _ => None,
    }
}

fn cases() -> Vec<String> {
    [published_vectors(), lengths(), causes(), rooms(), changed(), random_lines()].concat()
}

fn aes_line(key: &[u8], block: &[u8], room: usize) -> String {
    format!("aes {} {} {room}", shown(key), shown(block))
}

fn block_line(words: &[u8], block: &[u8]) -> String {
    format!("encrypt_block {} {}", shown(words), shown(block))
}

/// Each published set as one call, and as two: the words of the key, and the block by them.
fn published_vectors() -> Vec<String> {
    let steps = |call: String| {
        let fields: Vec<&str> = call.split(' ').collect();
        let &["aes", key, block, _] = fields.as_slice() else {
            panic!("a set of AES is a call of aes");
        };
        let octets = |digits: &str| octets_field(digits.as_bytes()).expect("octets");
        let by_words = block_line(&expand_key(&octets(key)).1, &octets(block));
        [format!("expand_key {key}"), by_words, call]
    };
    published(vectors::AES).into_iter().flat_map(|published| steps(published.call)).collect()
}

/// Every length of a key and of a block from 0 to 33 octets.
fn lengths() -> Vec<String> {
    let lines = |octets: usize| {
        let other = key_of(octets);
        let key = format!("expand_key {}", shown(&other));
        [aes_line(&other, &key_of(16), 16), aes_line(&key_of(16), &other, 16), key]
    };
    (0..=33).flat_map(lines).collect()
}

/// 1, 5 and 4 in every set; a place of a set for each cause, in the order in which they are named.
fn causes() -> Vec<String> {
    let line = |set: usize| {
        let less = |place: usize| 16 - (set >> place & 1);
        aes_line(&key_of(less(0)), &key_of(less(1)), less(2))
    };
    (0..8).map(line).collect()
}

fn rooms() -> Vec<String> {
    [0, 1, 15, 16, 17, 56].map(|room| aes_line(&key_of(16), &[0xC3; 16], room)).to_vec()
}

/// One octet of each word changed, so that each place shows.
fn changed() -> Vec<String> {
    let (_, words) = expand_key(&key_of(16));
    let line = |word: usize| {
        let mut wrong = words.clone();
        wrong[4 * word + word % 4] ^= 0x81;
        block_line(&wrong, &[0xC3; 16])
    };
    (0..WORD_OCTETS / 4).map(line).collect()
}

/// Any words, any keys and blocks; a key, a block or a room is now and then just beyond.
fn random_lines() -> Vec<String> {
    let mut random = Random::seeded(43);
    let mut lines = Vec::new();
    for _ in 0..20 {
        let mut some = |count| (0..count).map(|_| random.octet()).collect::<Vec<u8>>();
        lines.push(block_line(&some(WORD_OCTETS), &some(16)));
    }
    for _ in 0..30 {
        let octets = [(); 3].map(|()| random.one_of(&[16, 16, 16, 16, 16, 16, 16, 15, 17]));
        let (key, block) = (random.digits(octets[0]), random.digits(octets[1]));
        lines.push(format!("aes {key} {block} {}", octets[2]));
    }
    let spoiled: Vec<String> =
        lines.iter().step_by(3).map(|line| spoiled(line, &mut random)).collect();
    lines.extend(spoiled);
    lines
}

#[cfg(test)]
mod tests {
    use super::*;
    use crate::call;

    fn answer_to(line: &str) -> String {
        call::answer(line.as_bytes()).unwrap_or("?".to_string())
    }

    #[test]
    fn every_octet_of_a_lent_buffer_is_shown_and_refused_words_are_zeros() {
        let key = "000102030405060708090a0b0c0d0e0f";
        let line = format!("aes {key} 00112233445566778899AABBCCDDEEFF");
        let ciphered = "69C4E0D86A7B0430D8CDB78070B4C55A";
        assert_eq!(answer_to(&format!("{line} 18")), format!("0 {ciphered}AAAA"));
        assert_eq!(answer_to(&format!("{line} 3")), "4 AAAAAA");
        assert_eq!(answer_to("aes - - 0"), "1 -");
        assert_eq!(answer_to("expand_key 00"), format!("1 {}", "00".repeat(176)));
        let words = answer_to(&format!("expand_key {key}"));
        let block = &line[line.len() - 32..];
        let by_words = format!("encrypt_block {} {block}", words.strip_prefix("0 ").unwrap());
        assert_eq!(answer_to(&by_words), ciphered);
        assert_eq!(answer_to(&by_words[..by_words.len() - 2]), "?");
        assert_eq!(answer_to(&by_words.replacen("00", "", 1)), "?");
    }

    #[test]
    fn the_first_cause_of_every_set_is_named() {
        for (set, line) in causes().iter().enumerate() {
            let named = ["1", "5", "4"].get(set.trailing_zeros() as usize).unwrap_or(&"0");
            assert_eq!(answer_to(line).split(' ').next(), Some(*named), "{line}");
        }
    }

    #[test]
    fn a_word_of_the_keys_changed_is_another_block() {
        let mut answers: Vec<String> = changed().iter().map(|line| answer_to(line)).collect();
        answers.push(answer_to(&block_line(&expand_key(&key_of(16)).1, &[0xC3; 16])));
        answers.sort();
        answers.dedup();
        assert_eq!(answers.len(), 45);
    }
}
