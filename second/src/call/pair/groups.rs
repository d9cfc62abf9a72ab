//! Lines whose answers hang together: messages that differ in bits that are ignored, codes nearly right,
//! messages there and back.

use super::given::Given;
use crate::product::pair::{self, F8Inputs};

pub fn lines() -> Vec<String> {
    [ignored_bits().concat(), codes().concat(), there_and_back().concat()].concat()
}

/// For each length all three calls with one message, three times: its spare bits and two octets
/// more are zeros, as they come, and ones.
fn ignored_bits() -> Vec<Vec<String>> {
    let alike = |bits: u32| {
        let octets = bits.div_ceil(8) as usize;
        let with = |change: fn(u8, u8) -> u8| {
            let mut given = Given::of(octets + 2, bits);
            let spare = (8 * octets - bits as usize) as u32;
            let masks = [(1 << spare) - 1, 0xFF, 0xFF].map(|mask: u32| mask as u8);
            for (octet, mask) in given.message[octets - 1..].iter_mut().zip(masks) {
                *octet = change(*octet, mask);
            }
            given.all()
        };
        [
            with(|octet, mask| octet & !mask),
            with(|octet, _| octet),
            with(|octet, mask| octet | mask),
        ]
    };
    let lengths = (1..=24).chain(60..=68).chain(124..=130).chain([19_993, 19_999]);
    lengths.map(|bits| alike(bits).concat()).collect()
}

/// Of each message a check of the right code, then checks of wrong ones: a bit changed, either half
/// right, octets in another order, and the codes of calls that differ in one field.
fn codes() -> Vec<Vec<String>> {
    let checks = |bits: u32| {
        let given = Given::of(bits.div_ceil(8) as usize, bits);
        let code = given.code();
        let mut others: Vec<u32> = (0..32).map(|place| code ^ 1 << place).collect();
        others.extend([code ^ 0xFFFF, code ^ 0xFFFF << 16, !code, 0, 1, u32::MAX]);
        others.extend([code.swap_bytes(), code.rotate_left(16), code.reverse_bits()]);
        let with = |change: fn(&mut Given)| {
            let mut other = given.clone();
            change(&mut other);
            other.code()
        };
        others.extend([
            with(|other| other.key[15] ^= 1),
            with(|other| other.count ^= 1),
            with(|other| other.fresh ^= 1),
            with(|other| other.direction ^= 1),
            with(|other| other.message[0] ^= 0x80),
            with(|other| {
                other.message.push(0);
                other.bits += 1;
            }),
        ]);
        let codes = [code].into_iter().chain(others);
        codes.map(|code| given.check(code)).collect()
    };
    [1, 62, 63, 64, 189, 1_000].map(checks).to_vec()
}

/// A message, and what f8 makes of it; the answer to the second is the message.
fn there_and_back() -> Vec<[String; 2]> {
    let both = |bits: u32| {
        let there = Given::of(bits.div_ceil(8) as usize, bits);
        let &Given { count, bearer, direction, .. } = &there;
        let mut message = there.message.clone();
        let inputs = F8Inputs { count, bearer, direction };
        pair::f8(inputs, &there.key, &there.message, bits, &mut message);
        let back = Given { message, ..there.clone() };
        [there, back].map(|given| given.f8(given.message.len()))
    };
    [1, 7, 8, 63, 64, 65, 253, 800, 20_000].map(both).to_vec()
}

#[cfg(test)]
mod tests {
    use super::*;
    use crate::call::form::{octets_field, shown};
    use crate::call::pair::tests::answer_to;

    #[test]
    fn the_spare_bits_and_the_octets_after_them_change_nothing() {
        for lines in ignored_bits() {
            let answers: Vec<String> = lines.iter().map(|line| answer_to(line)).collect();
            assert!(lines[0] != lines[3] && lines[3] != lines[6], "{}", lines[0]);
            assert_eq!((&answers[..3], &answers[..3]), (&answers[3..6], &answers[6..]));
            assert!(answers[0].starts_with("0 ") && answers[2] == "0 1", "{}", lines[0]);
        }
    }

    #[test]
    fn the_first_code_of_each_message_is_right_and_no_other() {
        for lines in codes() {
            let (right, wrong) = lines.split_first().unwrap();
            assert_eq!(answer_to(right), "0 1", "{right}");
            assert_eq!(wrong.len(), 32 + 6 + 3 + 6);
            for line in wrong {
                assert_eq!(answer_to(line), "0 0", "{line}");
            }
        }
    }

    #[test]
    fn f8_of_f8_is_the_message_with_its_spare_bits_cleared() {
        for [there, back] in there_and_back() {
            let fields: Vec<&str> = there.split(' ').collect();
            let (message, bits) = (fields[5], fields[6].parse::<usize>().unwrap());
            let mut octets = octets_field(message.as_bytes()).unwrap();
            *octets.last_mut().unwrap() &= (0xFF00 >> ((bits - 1) % 8 + 1)) as u8;
            let ciphered = back.split(' ').nth(5).unwrap();
            assert_eq!(answer_to(&there), format!("0 {ciphered}"));
            assert_eq!(answer_to(&back), format!("0 {}", shown(&octets)));
        }
    }
}
