//! An ordinary version of what the product does, to measure it against: numbers in place of bit lists,
//! the round keys prepared once a key, the S-boxes as tables or as in the club's baseline (document 02,
//! item 9). This file is what the program `benchmark` times.
//! Follows document 01, "The link", for the frames.

mod boxes;
mod kasumi;
mod keystreams;
mod milenage;
mod pair;

pub use boxes::{Boxes, Equations, Tables};

use crate::product::pair::{F8Inputs, F9Inputs};
use kasumi::Kasumi;
use keystreams::{gea4, gsm};
use milenage::full_set;
use pair::{f8, f9};

/// What the program `benchmark` does over and over.
#[derive(Clone, Copy)]
pub enum What {
    Gea4,
    Gsm,
    Block,
    Seal,
    Open,
    F8,
    F9,
    Milenage,
}

impl What {
    /// By its number in a line of `benchmark`.
    pub fn of(number: &str) -> Option<What> {
        let frames = [What::Gea4, What::Gsm, What::Block, What::Seal, What::Open];
        let all = [&frames[..], &[What::F8, What::F9, What::Milenage]].concat();
        all.get(number.parse::<usize>().ok()?).copied()
    }
}

const SAPI: u32 = 3;
const IOV: u32 = 0x0123_4567;

/// INPUT of a frame of the benchmark's link.
fn input_of(number: u32) -> u32 {
    (IOV ^ ((SAPI << 27) + (1 << 31))).wrapping_add(number)
}

/// The octets that hold M bits, of a message in which octet i is i modulo 256.
fn message_of(m: usize) -> Vec<u8> {
    (0..m.div_ceil(8)).map(|place| place as u8).collect()
}

/// One call with a number: the octets that it hands out. Payloads are zeros; the message is that of
/// f8 and f9.
fn one<B: Boxes>(
    boxes: &B,
    what: What,
    key: &[u8; 16],
    number: u32,
    m: usize,
    message: &[u8],
) -> Vec<u8> {
    let stream = |input| gea4(boxes, key, input, false, m);
    match what {
        What::Gea4 => stream(number),
        What::Gsm => gsm(boxes, key, number % (1 << 22)).concat(),
        What::Block => vec![Kasumi::new(boxes, key).cipher(number.into()) as u8],
        What::Seal | What::Open if m > 1520 => Vec::new(),
        What::Seal => {
            let (length, sent) = (m as u16 + 4, number as u16 % 512);
            let header = [length.to_be_bytes(), [1, (SAPI as u8) << 4], sent.to_be_bytes()];
            [header.concat(), stream(input_of(number))].concat()
        }
        What::Open => stream(input_of(0)),
        What::F8 | What::F9 if m == 0 || m > 20_000 => Vec::new(),
        What::F8 => {
            let inputs = F8Inputs { count: number, bearer: 0, direction: 0 };
            f8(boxes, key, inputs, message, m)
        }
        What::F9 => {
            let inputs = F9Inputs { count: number, fresh: 0, direction: 0 };
            f9(boxes, key, inputs, message, m).to_be_bytes().to_vec()
        }
        What::Milenage => full_set(boxes, key, number),
    }
}

/// The exclusive or of all octets that COUNT calls hand out, so that none can be left out.
pub fn benchmark<B: Boxes>(boxes: &B, what: What, m: usize, count: u32) -> u8 {
    let key = std::array::from_fn(|place| place as u8);
    let message = message_of(m);
    (0..count)
        .flat_map(|number| one(boxes, what, &key, number, m, &message))
        .fold(0, |sum, octet| sum ^ octet)
}

#[cfg(test)]
mod tests {
    use super::*;

    #[test]
    fn f8_and_f9_of_the_benchmark_hand_out_what_the_lines_do() {
        let tables = Tables::of_equations();
        let key = crate::cases::KEY;
        let handed_out = |line: String| {
            let answer = crate::call::answer(line.as_bytes()).expect("a line of call");
            match answer.split_once(' ').expect("a refusal and more") {
                ("0", octets) => crate::lines::octets(octets.as_bytes()).expect("octets"),
                _ => Vec::new(),
            }
        };
        let sum = |octets: Vec<u8>| octets.into_iter().fold(0, |sum, octet| sum ^ octet);
        for m in [0, 1, 7, 800, 2_061, 20_000, 20_001] {
            let octets = crate::lines::hex(&message_of(m));
            let message = if m == 0 { "-" } else { octets.as_str() };
            let f8 =
                |n| sum(handed_out(format!("f8 {key} {n} 0 0 {message} {m} {}", m.div_ceil(8))));
            let f9 = |n| sum(handed_out(format!("f9 {key} {n} 0 0 {message} {m}")));
            assert_eq!(benchmark(&tables, What::F8, m, 3), f8(0) ^ f8(1) ^ f8(2), "{m}");
            assert_eq!(benchmark(&tables, What::F9, m, 3), f9(0) ^ f9(1) ^ f9(2), "{m}");
        }
    }

    #[test]
    fn what_is_sealed_and_opened_is_what_the_plain_ends_make() {
        let tables = Tables::of_equations();
        let key: [u8; 16] = std::array::from_fn(|place| place as u8);
        let shown = crate::lines::hex(&key);
        let call = |line: String| crate::call::answer(line.as_bytes()).expect("a line of call");
        for (number, m) in [(0, 20), (1, 8), (511, 3), (512, 1), (70_000, 33)] {
            let payload = "00".repeat(m);
            let sender = format!("{shown} {IOV} 3 0 {number} {}", number + 1);
            let sealed = call(format!("seal {sender} {payload} {}", m + 6));
            let frame = one(&tables, What::Seal, &key, number, m, &[]);
            assert!(sealed.ends_with(&format!(" {}", crate::lines::hex(&frame))), "{sealed}");
            let header = format!("{:04X}0130 0000", m + 4).replace(' ', "");
            let opened = call(format!("open {shown} {IOV} 3 0 0 0 {header}{payload} {m}"));
            let payload = one(&tables, What::Open, &key, number, m, &[]);
            assert!(opened.ends_with(&format!(" {}", crate::lines::hex(&payload))), "{opened}");
        }
    }
}
