//! The refusal numbers, and which of several causes is named.
//! Follows document 01, "Refusal numbers", and document 02, item 4, for the thirteenth.

/// A success has refusal number 0.
pub const NONE: u8 = 0;

pub const KEY: u8 = 1;
pub const RANGE: u8 = 2;
pub const SIZE: u8 = 3;
pub const ROOM: u8 = 4;
pub const LENGTH: u8 = 5;
pub const VERSION: u8 = 6;
pub const SPARE: u8 = 7;
pub const OTHER: u8 = 8;
pub const START: u8 = 9;
pub const END: u8 = 10;
pub const REPEAT: u8 = 11;
pub const STATE: u8 = 12;
pub const RESERVE: u8 = 13;

/// Of several causes the first in the order of the list is named.
pub fn first(causes: &[(u8, bool)]) -> u8 {
    causes.iter().find(|(_, holds)| *holds).map_or(NONE, |&(number, _)| number)
}

/// 1, of KASUMI and KGCORE: the key has not 16 octets.
pub fn bad_key(key: &[u8]) -> bool {
    key.len() != 16
}
