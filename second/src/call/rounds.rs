//! The lines of what the rounds of KASUMI are lent, and lines to try them with: every length of a
//! key, the published vectors step by step, single entries and words changed, random ones.

use super::form::{number, octets_field, shown};
use super::Subject;
use crate::cases::{key_of, published, KEY};
use crate::product::rounds::{cipher_block, fi_table, round_keys};
use crate::random::Random;
use crate::vectors;

pub const SUBJECT: Subject = Subject {
    forms: &["fi_table", "round_keys KEY -> 0 1", "cipher_block TABLE:table KEYS:keys BLOCK:u64"],
    answer,
    cases,
};

fn answer(fields: &[&[u8]]) -> Option<String> {
    match *fields {
        [b"fi_table"] => Some(shown(&fi_table())),
        [b"round_keys", key] => {
            let (refusal, keys) = round_keys(&octets_field(key)?);
            Some(format!("{refusal} {}", shown(&keys)))
        }
        [b"cipher_block", table, keys, block] => {
            let table = octets_field(table).filter(|table| table.len() == 1280)?;
            let keys = octets_field(keys).filter(|keys| keys.len() == 128)?;
            Some(format!("{:016X}", cipher_block(&table, &keys, number(block)?)))
        }
        _ => None,
    }
}

fn cases() -> Vec<String> {
    [keys(), published_vectors(), changed(), random_lines()].concat()
}

/// Every length of a key from 0 to 33 octets, and the longest that a line holds.
fn keys() -> Vec<String> {
    let lengths = (0..=33).chain([2560]);
    lengths.map(|octets| format!("round_keys {}", shown(&key_of(octets)))).collect()
}

fn line(table: &[u8], keys: &[u8], block: u64) -> String {
    format!("cipher_block {} {} 0x{block:X}", shown(table), shown(keys))
}

/// The published KASUMI vectors: the keys of the rounds, and the block by them.
fn published_vectors() -> Vec<String> {
    let mut lines = Vec::new();
    for published in published(vectors::KASUMI) {
        let fields: Vec<&str> = published.call.split(' ').collect();
        let ["kasumi", key, block] = fields[..] else { continue };
        let octets = octets_field(key.as_bytes()).expect("a key is octets");
        let block = number(block.as_bytes()).expect("a block is a number");
        lines.push(format!("round_keys {key}"));
        lines.push(line(&fi_table(), &round_keys(&octets).1, block));
    }
    lines
}

/// One entry of the table and one word of the keys changed, so that each place shows.
fn changed() -> Vec<String> {
    let (table, (_, keys)) = (fi_table(), round_keys(&key_of(16)));
    let mut lines = Vec::new();
    for place in [0, 1, 2, 511, 1022, 1023, 1024, 1025, 1026, 1278, 1279] {
        let mut wrong = table.clone();
        wrong[place] ^= 0x81;
        lines.push(line(&wrong, &keys, 0x0123_4567_89AB_CDEF));
    }
    for word in 0..64 {
        let mut wrong = keys.clone();
        wrong[2 * word + word % 2] ^= 0x81;
        lines.push(line(&table, &wrong, 0x0123_4567_89AB_CDEF));
    }
    lines
}

/// Any table and any keys.
fn random_lines() -> Vec<String> {
    let mut random = Random::seeded(12);
    let mut lines = Vec::new();
    for _ in 0..40 {
        let mut octets = |count| (0..count).map(|_| random.octet()).collect::<Vec<u8>>();
        let (table, keys) = (octets(1280), octets(128));
        lines.push(line(&table, &keys, random.number()));
    }
    lines.push(format!("cipher_block {KEY} {KEY} 0"));
    lines
}
