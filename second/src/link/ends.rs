//! Sealing a frame and opening one.
//! Follows document 01, "The link" and the orders under "Refusal numbers", and document 02, item 4,
//! for 13.

use crate::bits::{of_number, of_octets, to_octets, xor};
use crate::keystreams::gea4;
use crate::lent::short;
use crate::link::frame::{self, HEADER_OCTETS};
use crate::link::numbering::{narrow, LAST_NUMBER};
use crate::link::states::{Link, Receiver, Sender};
use crate::refusals::{first, END, NONE, OTHER, REPEAT, RESERVE, ROOM, SIZE, STATE};

/// What sealing and opening hand out beside the lent octets.
#[derive(Debug, PartialEq)]
pub struct Answer<State> {
    pub refusal: u8,
    pub number: u32,
    pub length: usize,
    pub state: State,
}

impl<State> Answer<State> {
    /// The state handed back is the state given; every number is 0 but the candidate.
    fn refused(refusal: u8, number: u32, state: State) -> Self {
        Answer { refusal, number, length: 0, state }
    }
}

pub fn seal(sender: Sender, payload: &[u8], output: &mut [u8]) -> Answer<Sender> {
    let link = sender.link;
    let Some(mut left) = sender.left() else {
        return Answer::refused(STATE, 0, sender);
    };
    let length = HEADER_OCTETS + payload.len();
    let refusal = first(&[
        (SIZE, frame::bad_size(payload.len())),
        (END, i64::from(sender.next) == LAST_NUMBER + 1),
        (RESERVE, left.is_empty()),
        (ROOM, short(output, 8 * length as u64)),
    ]);
    if refusal != NONE {
        return Answer::refused(refusal, 0, sender);
    }
    let number = narrow(left.pop_first().expect("13 where none is left"));
    let ciphered = xored(&link, number, payload);
    let frame = frame::framed(link.sapi, link.direction, number % 512, &ciphered);
    output[..length].copy_from_slice(&frame);
    Answer { refusal, number, length, state: Sender { next: number + 1, ..sender } }
}

pub fn open(receiver: Receiver, frame: &[u8], output: &mut [u8]) -> Answer<Receiver> {
    let link = receiver.link;
    let Some(mut history) = receiver.history() else {
        return Answer::refused(STATE, 0, receiver);
    };
    let header = frame::header(frame);
    let this_link = (u64::from(link.sapi), u64::from(link.direction));
    let look_refusal = frame::look_refusal(frame);
    let refusal = first(&[
        (look_refusal, look_refusal != NONE),
        (OTHER, (header.sapi, header.direction) != this_link),
    ]);
    if refusal != NONE {
        return Answer::refused(refusal, 0, receiver);
    }

    let payload = frame::look(frame);
    let candidate = history.candidate(header.n as i64);
    let refusal = history.refusal(candidate);
    let refusal =
        first(&[(refusal, refusal != NONE), (ROOM, short(output, 8 * payload.len() as u64))]);
    match refusal {
        NONE => {
            let (number, length) = (narrow(candidate), payload.len());
            output[..length].copy_from_slice(&xored(&link, number, payload));
            history.accept(candidate);
            let (next, marks) = (narrow(history.next()), history.marks());
            Answer { refusal, number, length, state: Receiver { link, next, marks } }
        }
        REPEAT | ROOM => Answer::refused(refusal, narrow(candidate), receiver),
        _ => Answer::refused(refusal, 0, receiver),
    }
}

/// A payload, ciphered or deciphered as that of a number, at the front of lent octets.
pub fn cipher(link: Link, number: u32, payload: &[u8], output: &mut [u8]) -> u8 {
    let refusal = first(&[
        (STATE, link.cannot_arise()),
        (SIZE, frame::bad_size(payload.len())),
        (ROOM, short(output, 8 * payload.len() as u64)),
    ]);
    if refusal == NONE {
        output[..payload.len()].copy_from_slice(&xored(&link, number, payload));
    }
    refusal
}

/// A payload xored with the GEA4 output of its frame: sealing and opening alike.
fn xored(link: &Link, number: u32, payload: &[u8]) -> Vec<u8> {
    let input = super::input(link.iov, link.sapi, number);
    let keystream = gea4(
        &of_octets(&link.key),
        &of_number(input.into(), 32),
        &of_number(link.direction.into(), 1),
        payload.len(),
    );
    to_octets(&xor(&of_octets(payload), &keystream))
}

#[cfg(test)]
mod tests {
    use super::*;
    use crate::product::ciphers;
    use crate::refusals::{LENGTH, START};

    const LINK: Link = Link { key: [0x5A; 16], iov: 0, sapi: 3, direction: 1 };

    #[test]
    fn a_sealed_frame_is_its_header_and_the_ciphered_payload() {
        let sender = Sender { link: LINK, next: 513, reserved: 520 };
        let (mut output, mut keystream) = ([0xAA; 12], [0; 4]);
        let answer = seal(sender, &[1, 2, 3, 4], &mut output);
        let state = Sender { next: 514, ..sender };
        assert_eq!(answer, Answer { refusal: NONE, number: 513, length: 10, state });
        assert_eq!(output[..6], [0x00, 0x08, 0x01, 0x31, 0x00, 0x01]);
        assert_eq!(output[10..], [0xAA, 0xAA]);

        assert_eq!(ciphers::gea4(&LINK.key, 0x9800_0201, 1, 4, &mut keystream), NONE);
        let plain: Vec<u8> = output[6..10].iter().zip(keystream).map(|(a, b)| a ^ b).collect();
        assert_eq!(plain, [1, 2, 3, 4]);
    }

    #[test]
    fn the_largest_payload_seals_into_1526_octets() {
        let sender = Sender { link: LINK, next: 0, reserved: 1 };
        let answer = |payload: usize| seal(sender, &vec![0; payload], &mut [0; 1_600]);
        assert_eq!((answer(1_520).refusal, answer(1_520).length), (NONE, 1_526));
        assert_eq!((answer(1_521).refusal, answer(0).refusal), (SIZE, SIZE));
        assert_eq!(answer(0).state, sender);
    }

    #[test]
    fn the_last_number_below_the_reservation_is_sealed_and_no_other() {
        let sealed = |next, reserved| {
            let answer = seal(Sender { link: LINK, next, reserved }, &[7], &mut [0; 7]);
            (answer.refusal, answer.number, answer.state.next, answer.state.reserved)
        };
        assert_eq!(sealed(0, 0), (RESERVE, 0, 0, 0));
        assert_eq!(sealed(599, 600), (NONE, 599, 600, 600));
        assert_eq!(sealed(600, 600), (RESERVE, 0, 600, 600));
        assert_eq!(sealed(601, 600), (STATE, 0, 601, 600));
        assert_eq!(sealed(1 << 27, 1 << 27), (END, 0, 1 << 27, 1 << 27));
    }

    #[test]
    fn a_frame_refused_for_its_room_may_be_presented_again() {
        let sender = Sender { link: LINK, next: 2, reserved: 3 };
        let mut frame = [0; 9];
        seal(sender, &[7, 8, 9], &mut frame);
        let receiver = Receiver { link: LINK, next: 4, marks: 0b1001 };
        let mut output = [0xAA; 4];

        let answer = open(receiver, &frame, &mut output[..2]);
        assert_eq!(answer, Answer { refusal: ROOM, number: 2, length: 0, state: receiver });
        assert_eq!(output, [0xAA; 4]);

        let answer = open(receiver, &frame, &mut output);
        let state = Receiver { marks: 0b1011, ..receiver };
        assert_eq!(answer, Answer { refusal: NONE, number: 2, length: 3, state });
        assert_eq!(output, [7, 8, 9, 0xAA]);

        // Already accepted is named before a room that is short too.
        let answer = open(state, &frame, &mut []);
        assert_eq!(answer, Answer { refusal: REPEAT, number: 2, length: 0, state });
    }

    #[test]
    fn a_candidate_below_zero_is_not_handed_out() {
        let receiver = Receiver { link: LINK, next: 4, marks: 0b1101 };
        let answer = open(receiver, &frame::framed(3, 1, 500, &[0]), &mut [0; 1]);
        assert_eq!((answer.refusal, answer.number), (START, 0));
        assert_eq!(open(receiver, &[], &mut []).refusal, LENGTH);
    }
}
