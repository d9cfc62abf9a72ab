//! Stores and restores with every set of causes that can meet, so that the order of the refusals
//! shows; reservations at each end of what may be stored; rooms.

use super::{form_of, restore_receiver_line, restore_sender_line};
use super::{store_receiver_line, store_sender_line};
use crate::call::ends::{receiver_at, reservations, sender_at, LINK};
use crate::call::numbers::{arising, FULL};
use crate::link::states::{Link, Receiver, Sender};

pub fn lines() -> Vec<String> {
    let parts = [
        stored_senders(),
        stored_receivers(),
        restored(),
        reserved(),
        sender_states(),
        receiver_states(),
        rooms(),
    ];
    parts.concat()
}

/// A next number, a reservation and what is to be stored, and which of 12 and 2 they make.
const SENDERS: [(u32, u32, u32, &[u8]); 10] = [
    (5, 7, 7, &[]),
    (5, 7, 69, &[]),
    (5, 7, 6, &[2]),
    (5, 7, 70, &[2]),
    (FULL - 5, FULL - 5, FULL + 1, &[2]),
    (8, 7, 8, &[12]),
    (8, 7, 6, &[12, 2]),
    (5, 70, 70, &[12, 2]),
    (FULL, FULL + 1, FULL, &[12, 2]),
    (FULL + 1, FULL + 1, FULL + 1, &[12, 2]),
];

/// 12, 2 and 4 in every set.
fn stored_senders() -> Vec<String> {
    let mut lines = Vec::new();
    for (next, reserved, reservation, _) in SENDERS {
        for sapi in [3, 4] {
            let sender = Sender { link: Link { sapi, ..LINK }, next, reserved };
            lines.extend([29, 28].map(|room| store_sender_line(sender, reservation, room)));
        }
    }
    lines
}

/// 12 and 4 in every set: a mark, a service, a direction, and V above 2^27.
fn stored_receivers() -> Vec<String> {
    let good = receiver_at(600, 1);
    let bad = [
        Receiver { marks: 2, ..good },
        Receiver { link: Link { sapi: 4, ..LINK }, ..good },
        Receiver { link: Link { direction: 2, ..LINK }, ..good },
        Receiver { next: FULL + 1, ..good },
    ];
    let receivers = [good].into_iter().chain(bad);
    receivers.flat_map(|end| [33, 32].map(|room| store_receiver_line(end, room))).collect()
}

/// 5, 6 and 12 in every set, of either end: too short, another length field, another version, no
/// service.
fn restored() -> Vec<String> {
    let mut lines = Vec::new();
    for set in 0..16 {
        let has = |place: u32| set >> place & 1 == 1;
        let link = Link { sapi: if has(3) { 4 } else { 3 }, ..LINK };
        for words in [vec![600], vec![600, 1]] {
            let mut form = form_of(link, &words);
            if has(0) {
                form.pop();
            }
            if has(1) {
                form[0] = 1;
            }
            if has(2) {
                form[2] = 2;
            }
            let line = if words.len() == 1 { restore_sender_line } else { restore_receiver_line };
            lines.push(line(&form));
        }
    }
    lines
}

/// Every reservation that is told elsewhere, stored.
fn reserved() -> Vec<String> {
    let told = reservations::told().into_iter();
    told.map(|(sender, reservation)| store_sender_line(sender, reservation, 29)).collect()
}

fn sender_states() -> Vec<String> {
    let states = reservations::states().into_iter();
    states.map(|sender| store_sender_line(sender, sender.reserved, 30)).collect()
}

fn receiver_states() -> Vec<String> {
    let mut lines = Vec::new();
    for next in [0, 1, 2, 31, 32, 33, 600, FULL - 1, FULL, FULL + 1, u32::MAX] {
        let mut marks = vec![0, 1, 2, 3, u32::MAX, u32::MAX >> 1, 1 << 31, 1 << 31 | 1];
        marks.extend([0, 0x5555_5555, u32::MAX].map(|marks| arising(next, marks)));
        lines.extend(marks.iter().map(|&marks| store_receiver_line(receiver_at(next, marks), 34)));
    }
    lines
}

/// Rooms from none to more than either form.
fn rooms() -> Vec<String> {
    let (sender, receiver) = (sender_at(580), receiver_at(580, 0x6666_6667));
    (0..=40)
        .flat_map(|room| {
            [store_sender_line(sender, 640, room), store_receiver_line(receiver, room)]
        })
        .collect()
}

#[cfg(test)]
mod tests {
    use super::*;
    use crate::call;

    fn refusal(line: &str) -> u8 {
        let answer = call::answer(line.as_bytes()).unwrap();
        answer.split(' ').next().unwrap().parse().unwrap()
    }

    /// The first of an order that holds.
    fn first(order: &[(u8, bool)]) -> u8 {
        order.iter().find(|(_, holds)| *holds).map_or(0, |&(refusal, _)| refusal)
    }

    #[test]
    fn storing_a_sender_is_refused_with_12_before_2_before_4() {
        let mut lines = stored_senders().into_iter();
        for (_, _, _, causes) in SENDERS {
            for no_service in [false, true] {
                for short in [false, true] {
                    let state = no_service || causes.contains(&12);
                    let expected = first(&[(12, state), (2, causes.contains(&2)), (4, short)]);
                    let line = lines.next().unwrap();
                    assert_eq!(refusal(&line), expected, "{line}");
                }
            }
        }
        assert_eq!(lines.next(), None);
    }

    #[test]
    fn storing_a_receiver_is_refused_with_12_before_4() {
        let refusals: Vec<u8> = stored_receivers().iter().map(|line| refusal(line)).collect();
        assert_eq!(refusals, [0, 4, 12, 12, 12, 12, 12, 12, 12, 12]);
    }

    #[test]
    fn a_restore_is_refused_with_5_before_6_before_12() {
        for (place, line) in restored().iter().enumerate() {
            let set = place / 2;
            let has = |place: usize| set >> place & 1 == 1;
            let expected = first(&[(5, has(0) || has(1)), (6, has(2)), (12, has(3))]);
            assert_eq!(refusal(line), expected, "{line}");
        }
    }

    #[test]
    fn what_may_be_told_may_be_stored() {
        for (sender, reservation) in reservations::told() {
            let told = refusal(&format!("reserve {sender} {reservation}"));
            assert_eq!(refusal(&store_sender_line(sender, reservation, 29)), told);
        }
    }

    #[test]
    fn a_form_has_room_in_29_octets_and_in_33() {
        for (place, line) in rooms().iter().enumerate() {
            let (room, least) = (place / 2, [29, 33][place % 2]);
            assert_eq!(refusal(line), if room < least { 4 } else { 0 }, "{line}");
        }
    }
}
