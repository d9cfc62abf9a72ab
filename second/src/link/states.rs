//! The states of a sender and of a receiver, and how an end is opened.
//! Follows document 01, "The link" and "Refusal numbers", and document 02, items 1, 4 and 5.

use crate::lines::hex;
use crate::link::frame::LAST_DIRECTION;
use crate::link::numbering::History;
use crate::link::services::is_assigned;
use crate::product::ciphers::prepare_key;
use crate::refusals::{first, KEY, NONE, RANGE};
use std::fmt::{Display, Formatter, Result};

/// What both ends of a link agree on; the key is the prepared one.
#[derive(Clone, Copy, Debug, PartialEq)]
pub struct Link {
    pub key: [u8; 16],
    pub iov: u32,
    pub sapi: u8,
    pub direction: u8,
}

/// It seals only numbers below the reserved one.
#[derive(Clone, Copy, Debug, PartialEq)]
pub struct Sender {
    pub link: Link,
    pub next: u32,
    pub reserved: u32,
}

#[derive(Clone, Copy, Debug, PartialEq)]
pub struct Receiver {
    pub link: Link,
    pub next: u32,
    pub marks: u32,
}

/// A call that makes a state and is refused hands back all zeros with direction 2, which 12 then
/// refuses.
const NO_LINK: Link = Link { key: [0; 16], iov: 0, sapi: 0, direction: 2 };

pub const NO_SENDER: Sender = Sender::new(NO_LINK);
pub const NO_RECEIVER: Receiver = Receiver::new(NO_LINK);

pub fn open_sender(key: &[u8], iov: u32, sapi: u8, direction: u8) -> (u8, Sender) {
    let (refusal, link) = open_link(key, iov, sapi, direction);
    (refusal, Sender::new(link))
}

pub fn open_receiver(key: &[u8], iov: u32, sapi: u8, direction: u8) -> (u8, Receiver) {
    let (refusal, link) = open_link(key, iov, sapi, direction);
    (refusal, Receiver::new(link))
}

pub fn open_link(key: &[u8], iov: u32, sapi: u8, direction: u8) -> (u8, Link) {
    let out_of_range = !is_assigned(sapi) || direction > LAST_DIRECTION;
    let (key_refusal, key) = prepare_key(key);
    let refusal = first(&[(KEY, key_refusal != NONE), (RANGE, out_of_range)]);
    let link = if refusal == NONE { Link { key, iov, sapi, direction } } else { NO_LINK };
    (refusal, link)
}

impl Link {
    /// 12: a service number that is not assigned, or a direction out of range.
    pub fn cannot_arise(&self) -> bool {
        !is_assigned(self.sapi) || self.direction > LAST_DIRECTION
    }
}

impl Sender {
    const fn new(link: Link) -> Sender {
        Sender { link, next: 0, reserved: 0 }
    }
}

impl Receiver {
    const fn new(link: Link) -> Receiver {
        Receiver { link, next: 0, marks: 0 }
    }

    /// The history behind the state, or nothing when 12 applies.
    pub fn history(&self) -> Option<History> {
        History::of_state(self.next, self.marks).filter(|_| !self.link.cannot_arise())
    }
}

/// A state is written as its fields in order: the key in hex, the numbers in decimal.
impl Display for Link {
    fn fmt(&self, to: &mut Formatter) -> Result {
        let Link { key, iov, sapi, direction } = self;
        write!(to, "{} {iov} {sapi} {direction}", hex(key))
    }
}

impl Display for Sender {
    fn fmt(&self, to: &mut Formatter) -> Result {
        write!(to, "{} {} {}", self.link, self.next, self.reserved)
    }
}

impl Display for Receiver {
    fn fmt(&self, to: &mut Formatter) -> Result {
        write!(to, "{} {} {}", self.link, self.next, self.marks)
    }
}

#[cfg(test)]
mod tests {
    use super::*;

    #[test]
    fn a_bad_key_is_named_before_a_range_and_leaves_a_state_for_12() {
        let (refusal, sender) = open_sender(&[7; 15], 5, 16, 2);
        assert_eq!((refusal, sender), (KEY, NO_SENDER));
        assert!(sender.left().is_none());
        let (refusal, receiver) = open_receiver(&[7; 16], 5, 11, 2);
        assert_eq!(refusal, RANGE);
        assert_eq!(receiver.to_string(), format!("{} 0 0 2 0 0", "00".repeat(16)));
        assert!(receiver.history().is_none());
    }

    #[test]
    fn a_reserved_service_opens_nothing_and_arises_nowhere() {
        for sapi in [0, 4, 6, 10, 12, 15, 16, 255] {
            let (refusal, sender) = open_sender(&[7; 16], 5, sapi, 0);
            assert_eq!((refusal, sender), (RANGE, NO_SENDER));
            let link = Link { key: [7; 16], iov: 5, sapi, direction: 0 };
            assert!(Sender::new(link).left().is_none());
            assert!(Receiver::new(link).history().is_none());
        }
    }

    #[test]
    fn an_opened_end_holds_what_it_was_given() {
        let (refusal, receiver) = open_receiver(&[7; 16], 5, 11, 1);
        assert_eq!(refusal, NONE);
        assert_eq!(receiver.to_string(), format!("{} 5 11 1 0 0", "07".repeat(16)));
        let (refusal, sender) = open_sender(&[7; 16], 5, 11, 1);
        assert_eq!(refusal, NONE);
        assert_eq!(sender.to_string(), format!("{} 5 11 1 0 0", "07".repeat(16)));
    }
}
