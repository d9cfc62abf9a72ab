//! Sealing and opening with every set of causes that can meet, so that the order of the
//! refusals shows, and with every kind of state that cannot arise.

use super::{open_line, ready, receiver_at, seal_line, sealed, sender_at, LINK};
use crate::call::headers::payload;
use crate::call::numbers::FULL;
use crate::link::frame::framed;
use crate::link::states::{Link, Receiver, Sender};

pub fn lines() -> Vec<String> {
    [refused_seals(), sender_states(), refused_opens(), receiver_states()].concat()
}

/// A next number and a reservation, and which of 12, 10 and 13 they make: at 2^27 a sender that can
/// arise has 13 with 10.
const COUNTS: [(u32, u32, &[u8]); 9] = [
    (5, 6, &[]),
    (5, 69, &[]),
    (5, 5, &[13]),
    (FULL, FULL, &[10, 13]),
    (5, 4, &[12, 13]),
    (5, 70, &[12]),
    (FULL, FULL + 1, &[12, 10]),
    (FULL, FULL - 1, &[12, 10, 13]),
    (FULL + 1, FULL + 1, &[12, 13]),
];

/// The sizes of payloads, and whether they make 3.
const PAYLOADS: [(usize, bool); 3] = [(4, false), (0, true), (1_521, true)];

/// 12, 3, 10, 13 and 4 in every set that can meet.
fn refused_seals() -> Vec<String> {
    let mut lines = Vec::new();
    for (next, reserved, _) in COUNTS {
        for sapi in [3, 4] {
            let sender = Sender { link: Link { sapi, ..LINK }, next, reserved };
            for (size, _) in PAYLOADS {
                let payload = payload(size);
                lines.extend([size + 6, 3].map(|room| seal_line(sender, &payload, room)));
            }
        }
    }
    lines
}

/// What can be wrong with a frame that is opened, beside its number.
struct Causes {
    state: bool,
    length: bool,
    version: bool,
    spare: bool,
    other: bool,
    room: bool,
}

/// 12, 5, 6, 7, 8, one of 9, 10, 11 or none, and 4, in every set.
fn refused_opens() -> Vec<String> {
    let new = (600, 0x21, 602 - 512);
    let late = (600, 0x21, 590 - 512);
    let start = (4, 0xD, 500);
    let end = (FULL, 0x21, 0);
    let repeat = (600, 0x21, 594 - 512);
    let mut lines = Vec::new();
    for (next, marks, n) in [new, late, start, end, repeat] {
        for set in 0..64 {
            let has = |place: u32| set >> place & 1 == 1;
            let causes = Causes {
                state: has(0),
                length: has(1),
                version: has(2),
                spare: has(3),
                other: has(4),
                room: has(5),
            };
            lines.push(refused_open(receiver_at(next, marks), n, &causes));
        }
    }
    lines
}

fn refused_open(mut receiver: Receiver, n: u32, causes: &Causes) -> String {
    let sapi = if causes.other { 4 } else { LINK.sapi };
    let mut frame = framed(sapi, LINK.direction, n, &payload(3));
    if causes.state {
        receiver.marks &= !1;
    }
    if causes.length {
        frame.push(0);
    }
    if causes.version {
        frame[2] = 2;
    }
    if causes.spare {
        frame[4] |= 0x80;
    }
    open_line(receiver, &frame, if causes.room { 2 } else { 3 })
}

/// Services and directions that exist and that do not; the last is what a refused opening hands
/// back.
fn links() -> Vec<Link> {
    let mut links: Vec<Link> = [(1, 0), (11, 1), (4, 1), (16, 0), (11, 2), (1, 255), (6, 2)]
        .map(|(sapi, direction)| Link { sapi, direction, ..LINK })
        .to_vec();
    links.push(Link { key: [0; 16], iov: 0, sapi: 0, direction: 2 });
    links
}

fn sender_states() -> Vec<String> {
    let mut lines = Vec::new();
    for link in links() {
        for next in [0, 1, FULL - 1, FULL, FULL + 1, u32::MAX] {
            lines.push(seal_line(ready(link, next), &payload(2), 9));
        }
    }
    lines
}

/// Each cause of 12 alone, and beside it the states that just arise.
fn receiver_states() -> Vec<String> {
    let states: [(u32, &[u32]); 9] = [
        (0, &[0, 1, 2, 1 << 31, u32::MAX]),
        (1, &[1, 0, 2, 3]),
        (5, &[0x1F, 0x1E, 0x21, 0x3F]),
        (31, &[u32::MAX >> 1, u32::MAX, 1 << 31 | 1]),
        (32, &[u32::MAX, u32::MAX - 1]),
        (600, &[1, 0]),
        (FULL, &[1, 0]),
        (FULL + 1, &[1, 0]),
        (u32::MAX, &[1, u32::MAX]),
    ];
    let mut lines = Vec::new();
    for (next, marks) in states {
        let frame = sealed(sender_at(next.min(FULL - 1)), &payload(2));
        lines.extend(marks.iter().map(|&marks| open_line(receiver_at(next, marks), &frame, 3)));
    }
    for link in links() {
        for (next, marks) in [(0, 0), (600, 1), (600, 0), (FULL + 1, 1)] {
            let direction = link.direction % 2;
            let frame = framed(link.sapi % 16, direction, next % 512, &payload(2));
            lines.push(open_line(Receiver { link, next, marks }, &frame, 3));
        }
    }
    lines
}

#[cfg(test)]
mod tests {
    use super::*;
    use crate::call;

    #[test]
    fn the_first_cause_of_every_seal_is_named() {
        let mut lines = refused_seals().into_iter();
        for (_, _, counts) in COUNTS {
            for no_service in [false, true] {
                for (_, bad_size) in PAYLOADS {
                    for no_room in [false, true] {
                        let holds = |cause: &u8| match cause {
                            3 => bad_size,
                            4 => no_room,
                            12 => no_service || counts.contains(cause),
                            _ => counts.contains(cause),
                        };
                        let expected = [12, 3, 10, 13, 4].into_iter().find(holds).unwrap_or(0);
                        let line = lines.next().unwrap();
                        let answer = call::answer(line.as_bytes()).unwrap();
                        assert!(answer.starts_with(&format!("{expected} ")), "{line}");
                    }
                }
            }
        }
        assert_eq!(lines.next(), None);
    }

    #[test]
    fn the_first_cause_of_every_set_is_named() {
        let by_number = [0, 0, 9, 10, 11];
        for (place, line) in refused_opens().iter().enumerate() {
            let (set, numbering) = (place % 64, by_number[place / 64]);
            let has = |place: u32| set >> place & 1 == 1;
            let expected = [(has(0), 12), (has(1), 5), (has(2), 6), (has(3), 7), (has(4), 8)]
                .into_iter()
                .chain([(numbering != 0, numbering), (has(5), 4)])
                .find(|&(holds, _)| holds)
                .map_or(0, |(_, refusal)| refusal);
            let answer = call::answer(line.as_bytes()).unwrap();
            assert_eq!(answer.split(' ').next(), Some(expected.to_string().as_str()), "{line}");
        }
    }
}
