//! The lines of the link's two ends, and lines to try them with. A state is written as its fields,
//! and told the same way.

mod cases;
mod causes;
mod examples;
mod inputs;
mod keys;
pub mod reservations;
mod runs;
#[cfg(test)]
pub mod seen;
mod services;

use super::form::{lent, number, octets_field, shown};
use super::numbers::FULL;
use super::Subject;
use crate::link::ends::{open, seal, Answer};
use crate::link::frame::HEADER_OCTETS;
use crate::link::reserving::reserve;
use crate::link::states::{open_receiver, open_sender, Link, Receiver, Sender};
use std::fmt::Display;

pub const SUBJECT: Subject = Subject {
    forms: &[
        "open_sender KEY IOV:u32 SAPI:u8 DIRECTION:u8 -> 0 1 2",
        "open_receiver KEY IOV:u32 SAPI:u8 DIRECTION:u8 -> 0 1 2",
        "sender_can_arise SENDER",
        "receiver_can_arise RECEIVER",
        "reserve SENDER RESERVATION:u32 -> 0 2 12",
        "seal SENDER PAYLOAD ROOM:size -> 0 3 4 10 12 13",
        "open RECEIVER FRAME ROOM:size -> 0 4 5 6 7 8 9 10 11 12",
    ],
    answer,
    cases: || {
        let parts = [
            examples::lines(),
            services::lines(),
            inputs::lines(),
            keys::lines(),
            cases::lines(),
            causes::lines(),
            reservations::lines(),
            runs::lines(),
        ];
        parts.concat()
    },
};

/// The fields of the states in a form.
pub const STATES: [(&str, &str); 3] = [
    ("LINK", "KEY:key IOV:u32 SAPI:u8 DIRECTION:u8"),
    ("SENDER", "KEY:key IOV:u32 SAPI:u8 DIRECTION:u8 NEXT:u32 RESERVED:u32"),
    ("RECEIVER", "KEY:key IOV:u32 SAPI:u8 DIRECTION:u8 NEXT:u32 MARKS:u32"),
];

/// An end that is opened or told a reservation answers REFUSAL and its state; sealing and opening
/// answer REFUSAL NUMBER LENGTH, the state afterwards and OUTPUT.
fn answer(fields: &[&[u8]]) -> Option<String> {
    match *fields {
        [b"open_sender", key, iov, sapi, direction] => {
            opened(open_sender, key, iov, sapi, direction)
        }
        [b"open_receiver", key, iov, sapi, direction] => {
            opened(open_receiver, key, iov, sapi, direction)
        }
        [b"sender_can_arise", ref state @ ..] => {
            Some(u8::from(sender(state)?.left().is_some()).to_string())
        }
        [b"receiver_can_arise", ref state @ ..] => {
            Some(u8::from(receiver(state)?.history().is_some()).to_string())
        }
        [b"reserve", ref state @ .., reservation] => {
            let (refusal, sender) = reserve(sender(state)?, number(reservation)?);
            Some(format!("{refusal} {sender}"))
        }
        [b"seal", ref state @ .., payload, room] => {
            let (sender, payload, mut output) =
                (sender(state)?, octets_field(payload)?, lent(room)?);
            let answer = seal(sender, &payload, &mut output);
            Some(told(&answer, &output))
        }
        [b"open", ref state @ .., frame, room] => {
            let (receiver, frame, mut output) =
                (receiver(state)?, octets_field(frame)?, lent(room)?);
            let answer = open(receiver, &frame, &mut output);
            Some(told(&answer, &output))
        }
        _ => None,
    }
}

pub fn opened<State: Display>(
    call: fn(&[u8], u32, u8, u8) -> (u8, State),
    key: &[u8],
    iov: &[u8],
    sapi: &[u8],
    direction: &[u8],
) -> Option<String> {
    let (refusal, state) =
        call(&octets_field(key)?, number(iov)?, number(sapi)?, number(direction)?);
    Some(format!("{refusal} {state}"))
}

/// The key of a state is an array of 16 octets, so that another length has no form.
pub fn link(key: &[u8], iov: &[u8], sapi: &[u8], direction: &[u8]) -> Option<Link> {
    let key = octets_field(key)?.try_into().ok()?;
    Some(Link { key, iov: number(iov)?, sapi: number(sapi)?, direction: number(direction)? })
}

pub fn sender(fields: &[&[u8]]) -> Option<Sender> {
    let &[key, iov, sapi, direction, next, reserved] = fields else { return None };
    let link = link(key, iov, sapi, direction)?;
    Some(Sender { link, next: number(next)?, reserved: number(reserved)? })
}

pub fn receiver(fields: &[&[u8]]) -> Option<Receiver> {
    let &[key, iov, sapi, direction, next, marks] = fields else { return None };
    let link = link(key, iov, sapi, direction)?;
    Some(Receiver { link, next: number(next)?, marks: number(marks)? })
}

fn told<State: Display>(answer: &Answer<State>, output: &[u8]) -> String {
    let Answer { refusal, number, length, state } = answer;
    format!("{refusal} {number} {length} {state} {}", shown(output))
}

/// The link of cases in which any link would do.
pub const LINK: Link = Link {
    key: [0, 1, 2, 3, 4, 5, 6, 7, 8, 9, 10, 11, 12, 13, 14, 15],
    iov: 0x1234_5678,
    sapi: 3,
    direction: 1,
};

/// A sender that may seal its next number, and as many after it as these say; where there is no such
/// number, one that stands at its reservation.
fn ready(link: Link, next: u32) -> Sender {
    let left = next / 7 % 64;
    let reserved = if next < FULL { (next + 1 + left).min(FULL) } else { next };
    Sender { link, next, reserved }
}

pub fn sender_at(next: u32) -> Sender {
    ready(LINK, next)
}

pub fn receiver_at(next: u32, marks: u32) -> Receiver {
    Receiver { link: LINK, next, marks }
}

/// The frame that a sender makes of a payload.
fn sealed(sender: Sender, payload: &[u8]) -> Vec<u8> {
    let mut frame = vec![0; HEADER_OCTETS + payload.len()];
    let answer = seal(sender, payload, &mut frame);
    assert_eq!(answer.refusal, 0, "a case needs a frame");
    frame
}

pub fn seal_line(sender: Sender, payload: &[u8], room: usize) -> String {
    format!("seal {sender} {} {room}", shown(payload))
}

pub fn open_line(receiver: Receiver, frame: &[u8], room: usize) -> String {
    format!("open {receiver} {} {room}", shown(frame))
}

pub fn reserve_line(sender: Sender, reservation: u32) -> String {
    format!("reserve {sender} {reservation}")
}

#[cfg(test)]
mod tests {
    use crate::call;

    const KEY: &str = "000102030405060708090A0B0C0D0E0F";

    fn answer_to(line: &str) -> String {
        let line = line.replace('K', KEY);
        call::answer(line.as_bytes()).unwrap_or("?".to_string()).replace(KEY, "K")
    }

    #[test]
    fn a_refused_call_shows_the_state_given_and_the_lent_octets() {
        let end = "K 1 2 0 134217728 134217728";
        assert_eq!(answer_to(&format!("seal {end} AB 2")), format!("10 0 0 {end} AAAA"));
        assert_eq!(answer_to("seal K 1 2 0 7 7 AB 2"), "13 0 0 K 1 2 0 7 7 AAAA");
        assert_eq!(answer_to("reserve K 1 2 0 7 9 8"), "2 K 1 2 0 7 9");
        assert_eq!(answer_to("reserve K 1 2 0 9 7 8"), "12 K 1 2 0 9 7");
        assert_eq!(answer_to("open K 1 2 0 5 0x3 - 1"), "5 0 0 K 1 2 0 5 3 AA");
        let nothing = "00".repeat(16);
        assert_eq!(answer_to("open_sender 00 1 2 0"), format!("1 {nothing} 0 0 2 0 0"));
        assert_eq!(answer_to("open_receiver K 1 16 0"), format!("2 {nothing} 0 0 2 0 0"));
    }

    #[test]
    fn what_was_sealed_opens() {
        assert_eq!(answer_to("reserve K 0 3 1 26 26 90"), "0 K 0 3 1 26 90");
        let sealed = answer_to("seal K 0 3 1 26 90 48656C6C6F 12");
        let frame = sealed.strip_prefix("0 26 11 K 0 3 1 27 90 ").expect("the frame of number 26");
        let frame = frame.strip_suffix("AA").expect("an octet to spare");
        assert_eq!(&frame[..12], "00090131001A");
        assert_eq!(answer_to(&format!("look {frame}")), format!("0 {}", &frame[12..]));
        assert_eq!(answer_to(&format!("header {frame}")), "3 1 26");
        assert_eq!(
            answer_to(&format!("open K 0 3 1 0 0 {frame} 6")),
            "0 26 5 K 0 3 1 27 1 48656C6C6FAA"
        );
        assert_eq!(answer_to(&format!("open K 0 3 1 27 1 {frame} 0")), "11 26 0 K 0 3 1 27 1 -");
    }

    #[test]
    fn the_key_of_a_state_has_16_octets() {
        for key in ["-", "00", &KEY[2..], &format!("{KEY}10")] {
            assert_eq!(answer_to(&format!("seal {key} 0 3 1 26 27 AB 7")), "?");
            assert_eq!(answer_to(&format!("open {key} 0 3 1 0 0 AB 7")), "?");
            assert_ne!(answer_to(&format!("open_sender {key} 0 3 1")), "?");
        }
    }
}
