//! Test inputs for the product's programs, the same on every machine. Those for `call` stand
//! beside its lines.

pub mod challenge;
pub mod demo;
pub mod huge;
pub mod stream;
pub mod walk;

use crate::random::Random;
use crate::vectors::{self, Published};

/// The key of cases in which any key would do.
pub const KEY: &str = "000102030405060708090A0B0C0D0E0F";

/// A key of so many octets, no two of any 16 in a row alike.
pub fn key_of(octets: usize) -> Vec<u8> {
    (0..octets).map(|place| (0x3B + 0x1D * place) as u8).collect()
}

/// Sizes around an octet and around KASUMI's block of 64 bits or 8 octets.
pub const SIZES: [usize; 10] = [1, 7, 8, 9, 63, 64, 65, 127, 128, 129];

/// Octets just beside the digits and letters of hex, which a careless reader takes for digits.
pub const NEAR_HEX: [char; 8] = ['g', 'G', '`', '@', '/', ':', '-', 'x'];

/// The calls of a copied vector file.
pub fn published(file: &str) -> Vec<Published> {
    vectors::calls(file).expect("the copied vector files are of their form")
}

pub fn ended(lines: Vec<String>) -> String {
    lines.iter().flat_map(|line| [line.as_str(), "\n"]).collect()
}

/// A line with one character changed, left out or put in: nearly, and now and then still,
/// of the form.
pub fn spoiled(line: &str, random: &mut Random) -> String {
    let mut characters: Vec<char> = line.chars().collect();
    let place = random.below(characters.len());
    let new = char::from(random.one_of(b"09afAFgGxX -+:/@`\t\r_,.~"));
    match random.below(3) {
        0 => characters[place] = new,
        1 => characters.insert(place, new),
        _ => drop(characters.remove(place)),
    }
    characters.into_iter().collect()
}
