//! Document 02, item 1: an end opened with a key of 8 octets and one opened with that key doubled, each
//! in turn the sender, in both directions. Both are opened and hold the same key, and a text goes over.

use super::{open_line, reserve_line, seal_line, sealed};
use crate::call::form::shown;
use crate::cases::key_of;
use crate::link::states::{open_receiver, open_sender, Sender};

const IOV: u32 = 0x89AB_CDEF;
const SAPI: u8 = 7;
const TEXT: &[u8; 12] = b"an old phone";

pub fn lines() -> Vec<String> {
    let short = key_of(8);
    let doubled = [short.as_slice(), &short].concat();
    let between =
        |direction| [over(&short, &doubled, direction), over(&doubled, &short, direction)].concat();
    [0, 1].into_iter().flat_map(between).collect()
}

/// Two ends opened with these keys, and a text from the one to the other.
fn over(sender_key: &[u8], receiver_key: &[u8], direction: u8) -> Vec<String> {
    let (_, new) = open_sender(sender_key, IOV, SAPI, direction);
    let sender = Sender { reserved: 1, ..new };
    let (_, receiver) = open_receiver(receiver_key, IOV, SAPI, direction);
    let frame = sealed(sender, TEXT);
    vec![
        format!("open_sender {} {IOV} {SAPI} {direction}", shown(sender_key)),
        format!("open_receiver {} {IOV} {SAPI} {direction}", shown(receiver_key)),
        reserve_line(new, 1),
        seal_line(sender, TEXT, 18),
        open_line(receiver, &frame, 12),
    ]
}

#[cfg(test)]
mod tests {
    use super::*;
    use crate::call;
    use crate::lines::hex;

    /// The key, and the key written twice by hand.
    const KEYS: [&str; 2] = ["3B587592AFCCE906", "3B587592AFCCE9063B587592AFCCE906"];

    #[test]
    fn ends_of_a_key_and_of_the_key_doubled_understand_each_other() {
        let lines = lines();
        assert_eq!(lines.len(), 4 * 5);
        for (place, both) in lines.chunks(5).enumerate() {
            let [sender_key, receiver_key] = [0, 1].map(|end| both[end].split(' ').nth(1).unwrap());
            let (own, other) = (place % 2, 1 - place % 2);
            assert_eq!((sender_key, receiver_key), (KEYS[own], KEYS[other]));

            let answers: Vec<String> =
                both.iter().map(|line| call::answer(line.as_bytes()).unwrap()).collect();
            let state = format!("{} {IOV} {SAPI} {}", KEYS[1], place / 2);
            assert_eq!(answers[0], format!("0 {state} 0 0"));
            assert_eq!(answers[1], format!("0 {state} 0 0"));
            assert_eq!(answers[2], format!("0 {state} 0 1"));
            let sealed = format!("0 0 18 {state} 1 1 001001");
            assert!(answers[3].starts_with(&sealed), "{}", answers[3]);
            assert_eq!(answers[4], format!("0 0 12 {state} 1 1 {}", hex(TEXT)));
        }
    }
}
