//! The lines of the bench frame, and lines to try them with: frames good and bad, headers written.

use super::form::{handed_out, lent, number, octets_field, shown, size};
use super::Subject;
use crate::link::frame::{framed, header, look, look_refusal, put_header};

pub const SUBJECT: Subject = Subject {
    forms: &[
        "look FRAME -> 0 5 6 7",
        "header FRAME",
        "put_header SAPI:u8 DIRECTION:u8 N:u32 SIZE:size ROOM:size -> 0 2 3 4",
    ],
    answer,
    cases,
};

/// `look` answers REFUSAL PAYLOAD, `header` SAPI DIRECTION N.
fn answer(fields: &[&[u8]]) -> Option<String> {
    match *fields {
        [b"look", frame] => {
            let frame = octets_field(frame)?;
            Some(format!("{} {}", look_refusal(&frame), shown(look(&frame))))
        }
        [b"header", frame] => {
            let header = header(&octets_field(frame)?);
            Some(format!("{} {} {}", header.sapi, header.direction, header.n))
        }
        [b"put_header", sapi, direction, n, payload, room] => {
            let (sapi, direction, n) = (number(sapi)?, number(direction)?, number(n)?);
            let mut output = lent(room)?;
            let refusal = put_header(sapi, direction, n, size(payload)?, &mut output);
            Some(handed_out(refusal, &[output]))
        }
        _ => None,
    }
}

fn cases() -> Vec<String> {
    let mut frames = [sizes(), lengths(), versions(), spares(), meeting()].concat();
    frames.push(vec![0xFF; 2560]);
    let looks = frames.iter().flat_map(|frame| {
        let frame = shown(frame);
        [format!("look {frame}"), format!("header {frame}")]
    });
    looks.chain(headers()).collect()
}

/// A payload in which neighbouring octets differ.
pub fn payload(size: usize) -> Vec<u8> {
    (0..size).map(|place| (29 * place + 1) as u8).collect()
}

/// A frame of two payload octets, to be spoiled.
fn good_frame() -> Vec<u8> {
    framed(3, 1, 26, &[0x55, 0xAA])
}

/// Good frames of many sizes, and each SAPI, direction and some N.
fn sizes() -> Vec<Vec<u8>> {
    let mut frames: Vec<Vec<u8>> = [1, 2, 7, 8, 9, 64, 251, 252, 1_519, 1_520]
        .map(|size| framed(3, 1, 26, &payload(size)))
        .to_vec();
    for sapi in 0..16 {
        frames.extend([0, 1].map(|direction| framed(sapi, direction, 0, &[0x55])));
    }
    frames.extend([1, 2, 128, 255, 256, 257, 510, 511].map(|n| framed(15, 0, n, &[0x55])));
    frames
}

/// Slices from none to eight octets, and slices and L at each end of what they may be.
fn lengths() -> Vec<Vec<u8>> {
    let mut frames: Vec<Vec<u8>> =
        (0..=good_frame().len()).map(|length| good_frame()[..length].to_vec()).collect();
    for l in [0, 1, 3, 4, 5, 6, 261, 1_280, 1_523, 1_524, 1_525, 1_526, 2_558, 65_535] {
        let slices = [l - 1, l, l + 1, l + 2, l + 3, 7, 8];
        let slices = slices.iter().filter(|slice| (2..=2_560).contains(*slice));
        frames.extend(slices.map(|&slice| of_length(l as u16, slice as usize)));
    }
    frames
}

fn versions() -> Vec<Vec<u8>> {
    [0, 2, 3, 5, 9, 16, 17, 33, 65, 128, 129, 254, 255].map(|version| with(2, version)).to_vec()
}

/// Every octet 3; every bit of octets 4 and 5, alone and with all others.
fn spares() -> Vec<Vec<u8>> {
    let mut frames: Vec<Vec<u8>> = (0..=255).map(|octet| with(3, octet)).collect();
    for place in 0..8 {
        for bits in [1 << place, !(1 << place)] {
            frames.extend([4, 5].map(|octet| with(octet, bits)));
        }
    }
    frames
}

/// Every set of the causes 5, 6 and 7, each of them in more than one way.
fn meeting() -> Vec<Vec<u8>> {
    let mut frames = Vec::new();
    for version in [1, 0] {
        for (octet3, octet4) in [(0x31, 1), (0x33, 1), (0x31, 3), (0x39, 0x81)] {
            for (l, slice) in [(6, 8), (6, 7), (6, 9), (4, 6), (1_525, 1_527), (5, 8)] {
                let mut frame = of_length(l, slice);
                (frame[2], frame[3], frame[4]) = (version, octet3, octet4);
                frames.push(frame);
            }
        }
    }
    frames
}

/// So many octets, good but for an L that need not fit them.
fn of_length(l: u16, slice: usize) -> Vec<u8> {
    let mut frame = framed(3, 1, 26, &payload(2_554));
    frame[..2].copy_from_slice(&l.to_be_bytes());
    frame.truncate(slice);
    frame
}

/// The good frame with another octet in a place.
fn with(place: usize, octet: u8) -> Vec<u8> {
    let mut frame = good_frame();
    frame[place] = octet;
    frame
}

/// Headers written: every set of causes, and each number at its ends.
fn headers() -> Vec<String> {
    let line = |sapi: u32, direction: u32, n: u32, size: u32, room: u32| {
        format!("put_header {sapi} {direction} {n} {size} {room}")
    };
    let mut lines = Vec::new();
    for (sapi, direction) in [(15, 1), (16, 1), (15, 2), (16, 2)] {
        for n in [511, 512] {
            for size in [1_520, 0, 1_521] {
                lines.extend([6, 5].map(|room| line(sapi, direction, n, size, room)));
            }
        }
    }
    for sapi in (0..=17).chain([31, 32, 128, 255]) {
        lines.extend([0, 1, 2, 3, 128, 255].map(|direction| line(sapi, direction, 26, 5, 7)));
    }
    let ns = [0, 1, 2, 4, 8, 16, 32, 64, 128, 255, 256, 257, 510, 511, 512, 513, 1_023];
    lines.extend(ns.map(|n| line(3, 1, n, 5, 7)));
    lines.extend([65_535, 65_536, u32::MAX].map(|n| line(3, 1, n, 5, 7)));
    let sizes = [0, 1, 2, 251, 252, 253, 507, 508, 1_519, 1_520, 1_521, 65_535, 65_536, 65_600];
    lines.extend(sizes.map(|size| line(3, 1, 26, size, 7)));
    lines.extend((0..10).chain([40]).map(|room| line(3, 1, 26, 5, room)));
    lines
}

#[cfg(test)]
mod tests {
    use crate::call;

    fn answer_to(line: &str) -> String {
        call::answer(line.as_bytes()).unwrap_or("?".to_string())
    }

    #[test]
    fn a_look_at_a_bad_frame_is_empty() {
        assert_eq!(answer_to("look -"), "5 -");
        assert_eq!(answer_to("look 00050031000055"), "6 -");
        assert_eq!(answer_to("look 00050133000055"), "7 -");
        assert_eq!(answer_to("look 00050131000055"), "0 55");
        assert_eq!(answer_to("header 00050131001A55"), "3 1 26");
        assert_eq!(answer_to("put_header 3 1 511 1520 7"), "0 05F4013101FFAA");
        assert_eq!(answer_to("put_header 3 1 511 65601 7"), "?");
    }
}
