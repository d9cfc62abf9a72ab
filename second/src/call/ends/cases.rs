//! Ends opened, frames sealed and frames opened: sizes, rooms, numbers, services, damage.

use super::{open_line, ready, receiver_at, seal_line, sealed, sender_at, LINK};
use crate::call::form::shown;
use crate::call::headers::payload;
use crate::call::numbers::{arising, n_of, FULL};
use crate::cases::{key_of, KEY, SIZES};
use crate::link::frame::framed;
use crate::link::services::assigned;
use crate::link::states::{Link, Receiver};

pub fn lines() -> Vec<String> {
    let parts = [
        openings(),
        sealed_sizes(),
        sealed_inputs(),
        opened_sizes(),
        windows(),
        late(),
        others(),
        damaged(),
    ];
    parts.concat()
}

/// Keys of 0 to 33 octets and numbers at their ends, for a sender and for a receiver.
fn openings() -> Vec<String> {
    let mut fields = Vec::new();
    for octets in 0..=33 {
        let key = shown(&key_of(octets));
        for (sapi, direction) in [(11, 1), (4, 1), (11, 2), (16, 2)] {
            fields.push(format!("{key} 0xDEADBEEF {sapi} {direction}"));
        }
    }
    fields.push(format!("{} 1 2 0", "5A".repeat(2_560)));
    fields.extend([3, 128, 255].map(|direction| format!("{KEY} 7 11 {direction}")));
    fields.extend([0, 1, u32::MAX].map(|iov| format!("{KEY} {iov} 1 0")));
    fields
        .iter()
        .flat_map(|fields| ["open_sender", "open_receiver"].map(|name| format!("{name} {fields}")))
        .collect()
}

/// Payloads from one octet to too many, with short, exact and larger rooms.
fn sealed_sizes() -> Vec<String> {
    let mut lines = Vec::new();
    for size in SIZES {
        let rooms = [0, size, size + 5, size + 6, size + 7, size + 46];
        lines.extend(rooms.map(|room| seal_line(sender_at(538), &payload(size), room)));
    }
    for (size, room) in [(1_519, 1_525), (1_520, 1_525), (1_520, 1_526), (1_520, 1_527)] {
        lines.push(seal_line(sender_at(538), &payload(size), room));
    }
    for size in [0, 1_521, 2_560] {
        lines.extend([0, 6, size + 6].map(|room| seal_line(sender_at(538), &payload(size), room)));
    }
    lines
}

/// Everything that INPUT is made of: the number, the offset, the service, the direction.
fn sealed_inputs() -> Vec<String> {
    let line = |link: Link, next: u32| seal_line(ready(link, next), &[0; 9], 16);
    let mut lines = Vec::new();
    let numbers = [0, 1, 2, 255, 256, 511, 512, 513, 1_023, 1_024, FULL - 2, FULL - 1];
    for next in numbers.into_iter().chain([FULL, FULL + 1, u32::MAX]) {
        for iov in [0, 0x7FFF_FFFF, 0x8000_0000, u32::MAX] {
            lines.push(line(Link { iov, ..LINK }, next));
        }
    }
    for sapi in assigned() {
        for direction in [0, 1] {
            let link = Link { sapi, direction, ..LINK };
            lines.extend([0, FULL - 1].map(|next| line(link, next)));
        }
    }
    lines.extend((0..32).map(|place| line(Link { iov: 1 << place, ..LINK }, 0)));
    lines.extend((0..27).map(|place| line(LINK, 1 << place)));
    lines.extend(
        (0..128).map(|place| line(Link { key: (1u128 << place).to_be_bytes(), ..LINK }, 0)),
    );
    lines
}

/// Frames opened with short, exact and larger rooms.
fn opened_sizes() -> Vec<String> {
    let receiver = receiver_at(540, 0xFFFF_FF09);
    let mut lines = Vec::new();
    for size in SIZES.into_iter().chain([1_519, 1_520]) {
        let frame = sealed(sender_at(538), &payload(size));
        let rooms = [0, size - 1, size, size + 1, size + 40];
        lines.extend(rooms.map(|room| open_line(receiver, &frame, room)));
    }
    lines
}

/// Frames around the ends of the window, for V around the ends of the numbers: those that a
/// sender can make as it makes them, the others with a payload of no meaning.
fn windows() -> Vec<String> {
    let mut lines = Vec::new();
    let low = [0, 1, 2, 31, 32, 33, 480, 511, 512, 513];
    let high = [480, 479, 33, 32, 1, 0].map(|below| FULL - below);
    for next in low.into_iter().chain(high) {
        let receiver = receiver_at(next, arising(next, 0x5555_5555));
        for offset in [-33, -32, -31, -2, -1, 0, 1, 30, 31, 32, 33, 478, 479, 480] {
            let number = i64::from(next) + offset;
            let frame = if (0..i64::from(FULL)).contains(&number) {
                sealed(sender_at(number as u32), &payload(5))
            } else {
                framed(LINK.sapi, LINK.direction, n_of(number), &payload(5))
            };
            lines.push(open_line(receiver, &frame, 5));
        }
    }
    lines
}

/// Every late number, accepted once: with its mark and without.
fn late() -> Vec<String> {
    let mut lines = Vec::new();
    for number in 568..600 {
        let frame = sealed(sender_at(number), &payload(3));
        for marks in [1, 0x6666_6667, 0x9999_9999, u32::MAX] {
            lines.push(open_line(receiver_at(600, marks), &frame, 4));
        }
    }
    lines
}

/// A frame with every SAPI that its four bits can tell and either direction, for two links: a
/// reserved one is of no link.
fn others() -> Vec<String> {
    let mut lines = Vec::new();
    for link in [LINK, Link { sapi: 11, direction: 0, ..LINK }] {
        for sapi in 0..16 {
            for direction in [0, 1] {
                let frame = framed(sapi, direction, 7, &[9]);
                lines.push(open_line(Receiver { link, next: 7, marks: 0x41 }, &frame, 1));
            }
        }
    }
    lines
}

/// A sealed frame with each octet changed in turn, cut short at each, and with one more.
fn damaged() -> Vec<String> {
    let frame = sealed(sender_at(538), &payload(11));
    let receiver = receiver_at(537, 0xFFFF_0F0F);
    let mut frames: Vec<Vec<u8>> = Vec::new();
    for place in 0..frame.len() {
        for change in [0x01, 0x02, 0x10, 0x80, 0xFF] {
            let mut damaged = frame.clone();
            damaged[place] ^= change;
            frames.push(damaged);
        }
        frames.push(frame[..place].to_vec());
        let mut without = frame.clone();
        without.remove(place);
        frames.push(without);
    }
    frames.push([frame.as_slice(), &[0]].concat());
    frames.push([&[0], frame.as_slice()].concat());
    frames.push(frame);
    frames.iter().map(|frame| open_line(receiver, frame, 12)).collect()
}
