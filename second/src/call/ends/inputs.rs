//! Document 02, item 11: frames that have different INPUT, and frames that share one. Octets of
//! zero are ciphered, so that what stands in an answer is the keystream itself.

use super::{ready, reserve_line, seal_line, sender_at, LINK};
use crate::lines::hex;
use crate::link::services::assigned;
use crate::link::states::{Link, Sender};

const NUMBERS: u32 = 1 << 27;
const ZEROS: [u8; 16] = [0; 16];

/// Two texts of one length, for one and the same number.
const TEXTS: [&[u8; 15]; 2] = [b"meet me at nine", b"bring the radio"];

pub fn lines() -> Vec<String> {
    [of_each_service(), at_the_end(), two_offsets(), opened_twice()].concat()
}

/// The first, the middle and the last number of every service, under one offset after the other. If
/// services began only 2^26 apart, the middle of one would be the first of another.
fn of_each_service() -> Vec<String> {
    let of_offset = |iov| {
        assigned().into_iter().flat_map(move |sapi| {
            let link = Link { iov, sapi, ..LINK };
            let numbers = [0, NUMBERS / 2, NUMBERS - 1];
            numbers.map(|next| seal_line(ready(link, next), &ZEROS, 22))
        })
    };
    [0, 0x0123_4567, 0x7FFF_FFFF, 0xFFFF_FFFF].into_iter().flat_map(of_offset).collect()
}

/// Number 2^27 of a service and number 0 of another: of 1 and 2 under the offset of the pages, and of
/// 2 and 3 both ways under 32 offsets, one for each choice of the five highest bits. A sender refuses
/// that number; the ciphering takes it.
fn at_the_end() -> Vec<String> {
    let pair = |iov, one, other| {
        [(one, NUMBERS), (other, 0)].map(|(sapi, number)| {
            let link = Link { iov, sapi, ..LINK };
            format!("cipher {link} {number} {} 16", hex(&ZEROS))
        })
    };
    let both_ways = |high: u32| {
        let iov = high * NUMBERS + high;
        [pair(iov, 2, 3), pair(iov, 3, 2)].concat()
    };
    let at_end = ready(Link { sapi: 1, ..LINK }, NUMBERS);
    let mut lines = vec![seal_line(at_end, &ZEROS, 22)];
    lines.extend(pair(0x0123_4567, 1, 2));
    lines.extend((0..32).flat_map(both_ways));
    lines
}

/// Number 1 under offset 0, and number 0 under offset 1.
fn two_offsets() -> Vec<String> {
    let line = |(iov, next)| seal_line(ready(Link { iov, ..LINK }, next), &ZEROS, 22);
    [(0, 1), (1, 0)].map(line).to_vec()
}

/// A sender is opened, told a reservation and seals a text, and is opened again and seals the other.
fn opened_twice() -> Vec<String> {
    let new = Sender { reserved: 0, ..sender_at(0) };
    let opened_for = |text: &[u8; 15]| {
        let told = Sender { reserved: 64, ..new };
        [format!("open_sender {LINK}"), reserve_line(new, 64), seal_line(told, text, 21)]
    };
    TEXTS.into_iter().flat_map(opened_for).collect()
}

#[cfg(test)]
mod tests {
    use super::*;
    use crate::call;
    use std::collections::HashSet;

    fn answers(lines: Vec<String>) -> Vec<String> {
        lines.iter().map(|line| call::answer(line.as_bytes()).unwrap()).collect()
    }

    /// What stands after the header, of a frame that was sealed.
    fn ciphered(answer: &str) -> &str {
        assert!(answer.starts_with("0 "), "{answer}");
        &answer.rsplit(' ').next().unwrap()[12..]
    }

    #[test]
    fn under_one_offset_no_two_keystreams_are_alike() {
        for answers in answers(of_each_service()).chunks(24) {
            let keystreams: HashSet<&str> = answers.iter().map(|answer| ciphered(answer)).collect();
            assert_eq!(keystreams.len(), 24);
        }
    }

    #[test]
    fn at_2_27_sealing_ends_and_two_services_would_meet() {
        let answers = answers(at_the_end());
        assert!(answers[0].starts_with("10 0 0 "));
        assert_eq!(answers[1], answers[2]);
        for ways in answers[3..].chunks(4) {
            assert!((ways[0] == ways[1]) ^ (ways[2] == ways[3]));
        }
    }

    #[test]
    fn two_offsets_can_share_a_keystream() {
        let answers = answers(two_offsets());
        assert_eq!(ciphered(&answers[0]), ciphered(&answers[1]));
    }

    #[test]
    fn a_sender_opened_twice_tells_the_xor_of_its_texts() {
        let answers = answers(opened_twice());
        for opened in [&answers[0], &answers[3]] {
            assert_eq!(*opened, format!("0 {LINK} 0 0"));
        }
        let xor = |one: &str, other: &str| {
            call::answer(format!("xor {one} {other} 15").as_bytes()).unwrap()
        };
        let [one, other] = [2, 5].map(|place| ciphered(&answers[place]));
        let [first, second] = TEXTS.map(|text| hex(text));
        assert_eq!(xor(one, other), xor(&first, &second));
    }
}
