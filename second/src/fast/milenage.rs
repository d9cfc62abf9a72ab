//! AES-128 and MILENAGE the ordinary way: a block is a number of 128 bits, a column one of 32. The
//! S-box is within a table for the rounds, or computed at each use.
//! Follows FIPS 197 and 3GPP TS 35.206, clause 4.1.

use super::Boxes;
use std::hint::black_box;

/// For each octet the column that MixColumns makes of its entry of the S-box in row 0.
pub struct RoundTable([u32; 256]);

impl RoundTable {
    pub fn computed() -> RoundTable {
        RoundTable(std::array::from_fn(|octet| column_of(s_box(octet as u8))))
    }

    pub fn column(&self, octet: u8) -> u32 {
        self.0[usize::from(octet)]
    }

    /// The entry of the S-box itself, which stands in row 1.
    pub fn entry(&self, octet: u8) -> u8 {
        (self.column(octet) >> 16) as u8
    }
}

/// The inverse as the power 254, which is the product of the powers 2, 4, 8 .. 128; then the affine
/// map.
pub fn s_box(octet: u8) -> u8 {
    let (mut power, mut inverse) = (octet, 1);
    for _ in 0..7 {
        power = product(power, power);
        inverse = product(inverse, power);
    }
    (0..5).fold(0x63, |entry, places| entry ^ inverse.rotate_left(places))
}

/// An entry times 02, 01, 01 and 03.
pub fn column_of(entry: u8) -> u32 {
    let twice = doubled(entry);
    u32::from_be_bytes([twice, entry, entry, twice ^ entry])
}

fn doubled(octet: u8) -> u8 {
    (octet << 1) ^ ((octet >> 7) * 0x1B)
}

fn product(left: u8, right: u8) -> u8 {
    let (mut left, mut sum) = (left, 0);
    for place in 0..8 {
        sum ^= left * (right >> place & 1);
        left = doubled(left);
    }
    sum
}

fn columns_of(block: u128) -> [u32; 4] {
    std::array::from_fn(|place| (block >> (96 - 32 * place)) as u32)
}

/// AES-128 under one key.
struct Aes<'boxes, B> {
    boxes: &'boxes B,
    words: [u32; 44],
}

impl<'boxes, B: Boxes> Aes<'boxes, B> {
    /// What is measured expands the key in each call, so no compiler may share the words of two.
    fn new(boxes: &'boxes B, key: u128) -> Self {
        let key = black_box(key);
        let mut words = [0; 44];
        words[..4].copy_from_slice(&columns_of(key));
        let mut rcon = 1;
        for place in 4..44 {
            let mut word = words[place - 1];
            if place % 4 == 0 {
                let octets = word.rotate_left(8).to_be_bytes().map(|octet| boxes.s(octet));
                word = u32::from_be_bytes(octets) ^ u32::from(rcon) << 24;
                rcon = doubled(rcon);
            }
            words[place] = words[place - 4] ^ word;
        }
        Aes { boxes, words }
    }

    fn encrypt(&self, block: u128) -> u128 {
        let mut columns = columns_of(block);
        let (before, rounds) = self.words.split_at(4);
        let (rounds, last) = rounds.split_at(36);
        for (column, word) in columns.iter_mut().zip(before) {
            *column ^= word;
        }
        // Row r of a column comes from r columns further on.
        let octet = |columns: &[u32; 4], place: usize, row: usize| {
            columns[(place + row) % 4].to_be_bytes()[row]
        };
        for words in rounds.chunks_exact(4) {
            columns = std::array::from_fn(|place| {
                let mixed = |row: usize| {
                    self.boxes.column(octet(&columns, place, row)).rotate_right(8 * row as u32)
                };
                mixed(0) ^ mixed(1) ^ mixed(2) ^ mixed(3) ^ words[place]
            });
        }
        let shifted = |place: usize| {
            let row = |row: usize| self.boxes.s(octet(&columns, place, row));
            u32::from_be_bytes([row(0), row(1), row(2), row(3)]) ^ last[place]
        };
        (0..4).fold(0, |block, place| block << 32 | u128::from(shifted(place)))
    }
}

/// OP of the benchmark, RAND of its number 0, and SQN with AMF twice.
const OP: u128 = 0x1011_1213_1415_1617_1819_1A1B_1C1D_1E1F;
const RAND: u128 = 0x2021_2223_2425_2627_2829_2A2B_2C2D_2E2F;
const IN1: u128 = 0x3031_3233_3435_4041_3031_3233_3435_4041;

/// One full set: OPc, f1, f1*, f2, f3, f4, f5 and f5*, one after the other, by eight calls, of which
/// each expands the key and all but the first work out TEMP. The two lowest octets of the number
/// change the last two of RAND.
pub fn full_set<B: Boxes>(boxes: &B, key: &[u8; 16], number: u32) -> Vec<u8> {
    let (k, rand) = (u128::from_be_bytes(*key), RAND ^ u128::from(number % 65_536));
    let opc = OP ^ Aes::new(boxes, k).encrypt(OP);
    let out1 = || out(boxes, k, opc, rand, |temp| temp ^ (IN1 ^ opc).rotate_left(64));
    let other = |places: u32, constant: u128| {
        out(boxes, k, opc, rand, |temp| (temp ^ opc).rotate_left(places) ^ constant)
    };
    let parts: [&[u8]; 8] = [
        &opc.to_be_bytes(),
        &out1()[..8],
        &out1()[8..],
        &other(0, 1)[8..],
        &other(32, 2),
        &other(64, 4),
        &other(0, 1)[..6],
        &other(96, 8)[..6],
    ];
    parts.concat()
}

/// The octets of an OUT, by what is made of TEMP.
fn out<B: Boxes>(
    boxes: &B,
    k: u128,
    opc: u128,
    rand: u128,
    turned: impl FnOnce(u128) -> u128,
) -> [u8; 16] {
    let aes = Aes::new(boxes, k);
    let temp = aes.encrypt(rand ^ opc);
    (aes.encrypt(turned(temp)) ^ opc).to_be_bytes()
}

#[cfg(test)]
mod tests {
    use super::*;
    use crate::fast::{benchmark, Equations, Tables, What};
    use crate::lines::{hex, octets};
    use crate::random::Random;
    use crate::{aes, call};

    #[test]
    fn fast_aes_equals_the_plain_one() {
        let (tables, equations) = (Tables::of_equations(), Equations::with_table_of_s7());
        let mut random = Random::seeded(5);
        for _ in 0..100 {
            let mut some = || -> [u8; 16] { std::array::from_fn(|_| random.octet()) };
            let (key, block) = (some(), some());
            let plain = u128::from_be_bytes(aes::aes(&key, &block));
            let (key, block) = (u128::from_be_bytes(key), u128::from_be_bytes(block));
            assert_eq!(Aes::new(&tables, key).encrypt(block), plain);
            assert_eq!(Aes::new(&equations, key).encrypt(block), plain);
        }
    }

    /// What the lines of `call` hand out for the set of this number.
    fn handed_out(number: u32) -> Vec<u8> {
        let run = |first: u8, count: u8| hex(&(first..first + count).collect::<Vec<u8>>());
        let last = 0x2E2F ^ number % 65_536;
        let (key, rand) = (run(0x00, 16), format!("{}{last:04X}", run(0x20, 14)));
        let answer_to = |line: String| {
            let answer = call::answer(line.as_bytes()).expect("a line of call");
            answer.strip_prefix("0 ").expect("a call that is not refused").to_string()
        };
        let opc = answer_to(format!("opc {key} {} 16", run(0x10, 16)));
        let common = format!("{key} {opc} {rand}");
        let numbered = format!("{common} {} {} 8", run(0x30, 6), run(0x40, 2));
        let codes = ["f1", "f1_star"].map(|name| answer_to(format!("{name} {numbered}")));
        let others = [("f2", 8), ("f3", 16), ("f4", 16), ("f5", 6), ("f5_star", 6)];
        let others = others.map(|(name, room)| answer_to(format!("{name} {common} {room}")));
        let digits = [&[opc][..], &codes, &others].concat().concat();
        octets(digits.as_bytes()).expect("octets")
    }

    #[test]
    fn a_set_of_the_benchmark_is_what_the_lines_hand_out() {
        let (tables, equations) = (Tables::of_equations(), Equations::with_table_of_s7());
        let key = std::array::from_fn(|place| place as u8);
        let mut sum = 0;
        for count in 0..5 {
            assert_eq!(benchmark(&tables, What::Milenage, 0, count), sum);
            assert_eq!(benchmark(&equations, What::Milenage, 65_536, count), sum);
            let set = handed_out(count);
            assert_eq!((set.len(), &full_set(&tables, &key, count)), (84, &set));
            sum = set.into_iter().fold(sum, |sum, octet| sum ^ octet);
        }
        for number in [255, 256, 65_535, 65_536, u32::MAX] {
            assert_eq!(full_set(&tables, &key, number), handed_out(number));
        }
    }
}
