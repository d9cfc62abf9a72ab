//! The stored forms of a sender and of a receiver. Follows document 02, item 4.
//!
//! A form is a list of fields of so many bits. What follows its length is written first and then
//! counted; to be read it is cut by the widths. The marks of a receiver are a bit for each of the 32
//! numbers below V, written from its history in the order of the numbers and read back into one.

use crate::bits::{of_number, of_octets, to_number, to_octets, Bits};
use crate::lent::{put, short};
use crate::link::numbering::{below, narrow, History};
use crate::link::reserving::reserve;
use crate::link::states::{Link, Receiver, Sender, NO_RECEIVER, NO_SENDER};
use crate::refusals::{first, LENGTH, NONE, ROOM, STATE, VERSION};
use std::collections::BTreeSet;

/// The version that both forms have.
const KNOWN: u64 = 1;

/// The widths in bits: the length of what follows, the version, the prepared key, IOV, SAPI and
/// direction, and the reserved number.
const SENDER: [usize; 7] = [16, 8, 128, 32, 8, 8, 32];

/// The same up to the direction, then V and the marks.
const RECEIVER: [usize; 8] = [16, 8, 128, 32, 8, 8, 32, 32];

/// The form of a sender that is to have this reservation.
pub fn store_sender(sender: Sender, reservation: u32, output: &mut [u8]) -> u8 {
    let form = form(&sender.link, &of_number(reservation.into(), 32));
    let (told, _) = reserve(sender, reservation);
    let refusal = first(&[(told, told != NONE), (ROOM, short(output, form.len() as u64))]);
    if refusal == NONE {
        put(&form, output);
    }
    refusal
}

pub fn store_receiver(receiver: Receiver, output: &mut [u8]) -> u8 {
    let Some(history) = receiver.history() else {
        return STATE;
    };
    let v = of_number(history.next() as u64, 32);
    let form = form(&receiver.link, &v.into_iter().chain(history.window()).collect::<Bits>());
    let refusal = first(&[(ROOM, short(output, form.len() as u64))]);
    if refusal == NONE {
        put(&form, output);
    }
    refusal
}

/// The sender goes on at its reservation: any number below may have been sealed.
pub fn restore_sender(octets: &[u8]) -> (u8, Sender) {
    restored(octets, &SENDER, NO_SENDER, |link, own| {
        let reserved = to_number(&own[0]) as u32;
        let sender = Sender { link, next: reserved, reserved };
        sender.left().map(|_| sender)
    })
}

pub fn restore_receiver(octets: &[u8]) -> (u8, Receiver) {
    restored(octets, &RECEIVER, NO_RECEIVER, |link, own| {
        let v = to_number(&own[0]) as i64;
        let numbers = below(v).zip(&own[1]).filter(|(_, &accepted)| accepted);
        let numbers: BTreeSet<i64> = numbers.map(|(number, _)| number).collect();
        let history = History::of_numbers(numbers, v).filter(|_| !link.cannot_arise())?;
        Some(Receiver { link, next: narrow(v), marks: history.marks() })
    })
}

/// Its length before everything else, and all that is the end's own after everything else.
fn form(link: &Link, own: &[bool]) -> Bits {
    let (sapi, direction) = (of_number(link.sapi.into(), 8), of_number(link.direction.into(), 8));
    let shared = [of_octets(&link.key), of_number(link.iov.into(), 32), sapi, direction];
    let follows = [of_number(KNOWN, 8), shared.concat(), own.to_vec()].concat();
    let length = of_number(to_octets(&follows).len() as u64, 16);
    [length, follows].concat()
}

/// The end that a form holds, by what makes it from the link and its own fields: nothing when 12
/// applies.
fn restored<End>(
    octets: &[u8],
    widths: &[usize],
    none: End,
    made: fn(Link, &[Bits]) -> Option<End>,
) -> (u8, End) {
    let Some(fields) = cut(&of_octets(octets), widths) else {
        return (LENGTH, none);
    };
    let refusal = first(&[
        (LENGTH, 8 * to_number(&fields[0]) != fields[1..].concat().len() as u64),
        (VERSION, to_number(&fields[1]) != KNOWN),
    ]);
    if refusal != NONE {
        return (refusal, none);
    }
    match made(link(&fields[2..6]), &fields[6..]) {
        Some(end) => (NONE, end),
        None => (STATE, none),
    }
}

fn link(fields: &[Bits]) -> Link {
    let number = |place: usize| to_number(&fields[place]);
    let key = to_octets(&fields[0]).try_into().expect("the key has 128 bits");
    Link { key, iov: number(1) as u32, sapi: number(2) as u8, direction: number(3) as u8 }
}

/// Fields of these widths, or nothing where they are not all that there is.
fn cut(bits: &[bool], widths: &[usize]) -> Option<Vec<Bits>> {
    let mut rest = bits;
    let mut fields = Vec::new();
    for &width in widths {
        let (field, after) = rest.split_at_checked(width)?;
        fields.push(field.to_vec());
        rest = after;
    }
    rest.is_empty().then_some(fields)
}

#[cfg(test)]
mod tests {
    use super::*;
    use crate::refusals::RANGE;

    const LINK: Link = Link { key: [0x5A; 16], iov: 0x0123_4567, sapi: 11, direction: 1 };

    fn shared(length: u8) -> Vec<u8> {
        let end: [u8; 6] = [0x01, 0x23, 0x45, 0x67, 11, 1];
        [&[0, length, 1] as &[u8], &[0x5A; 16], &end].concat()
    }

    #[test]
    fn the_form_of_a_sender_has_27_octets_after_its_length() {
        let sender = Sender { link: LINK, next: 0x0102, reserved: 0x0103 };
        let mut output = [0xAA; 31];
        assert_eq!(store_sender(sender, 0x0141, &mut output), NONE);
        let form = [shared(27), vec![0, 0, 1, 0x41]].concat();
        assert_eq!(output.as_slice(), [form.as_slice(), &[0xAA; 2]].concat());
        let restored = Sender { next: 0x0141, reserved: 0x0141, ..sender };
        assert_eq!(restore_sender(&form), (NONE, restored));
    }

    #[test]
    fn the_form_of_a_receiver_has_31_and_the_mark_below_v_is_lowest() {
        let receiver = Receiver { link: LINK, next: 600, marks: 0x8000_0005 };
        let mut output = [0xAA; 34];
        assert_eq!(store_receiver(receiver, &mut output), NONE);
        let form = [shared(31), vec![0, 0, 2, 0x58, 0x80, 0, 0, 5]].concat();
        assert_eq!(output.as_slice(), [form.as_slice(), &[0xAA]].concat());
        assert_eq!(restore_receiver(&form), (NONE, receiver));
        // The form of one end is no form of the other.
        assert_eq!(restore_sender(&form), (LENGTH, NO_SENDER));
    }

    #[test]
    fn what_is_refused_leaves_the_output_and_makes_no_end() {
        let sender = Sender { link: LINK, next: 5, reserved: 7 };
        let mut output = [0xAA; 28];
        assert_eq!(store_sender(sender, 7, &mut output), ROOM);
        assert_eq!(store_sender(sender, 6, &mut output), RANGE);
        assert_eq!(store_sender(Sender { next: 8, ..sender }, 6, &mut output), STATE);
        assert_eq!(store_receiver(Receiver { link: LINK, next: 5, marks: 2 }, &mut output), STATE);
        assert_eq!(output, [0xAA; 28]);
        let mut form = [shared(27), vec![8, 0, 0, 1]].concat();
        assert_eq!(restore_sender(&form), (STATE, NO_SENDER));
        form[2] = 2;
        assert_eq!(restore_sender(&form), (VERSION, NO_SENDER));
        form[0] = 1;
        assert_eq!(restore_sender(&form), (LENGTH, NO_SENDER));
        assert_eq!(restore_receiver(&[shared(31), vec![0; 7]].concat()), (LENGTH, NO_RECEIVER));
        assert_eq!(restore_receiver(&[shared(31), vec![255; 8]].concat()), (STATE, NO_RECEIVER));
    }

    #[test]
    fn a_form_and_its_state_agree_on_what_can_arise() {
        for next in [0, 1, 2, 31, 32, 33, 600, 1 << 27, (1 << 27) + 1, u32::MAX] {
            for marks in (0..32).flat_map(|k| [1 << k, 1 << k | 1, u32::MAX >> k, u32::MAX << k]) {
                let own = [next.to_be_bytes(), marks.to_be_bytes()].concat();
                let (refusal, _) = restore_receiver(&[shared(31), own].concat());
                let arises = Receiver { link: LINK, next, marks }.history().is_some();
                assert_eq!(refusal, if arises { NONE } else { STATE }, "{next} {marks:08X}");
            }
        }
    }
}
