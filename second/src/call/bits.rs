//! The lines of bit strings in octets, and lines to try them with.

use super::form::{handed_out, lent, number, octets_field, shown};
use super::Subject;
use crate::cases::{spoiled, SIZES};
use crate::product::octets;
use crate::random::Random;

pub const SUBJECT: Subject = Subject {
    forms: &[
        "cut OCTETS START:u32 LENGTH:u32 ROOM:size -> 0 4",
        "size BITS:u32",
        "first_bits OCTET:u8 COUNT:u32",
        "octet_or_zero OCTETS PLACE:u32",
        "xor OCTETS OCTETS ROOM:size -> 0 4",
    ],
    answer,
    cases,
};

fn answer(fields: &[&[u8]]) -> Option<String> {
    match *fields {
        [b"cut", source, start, length, room] => {
            let (source, mut output) = (octets_field(source)?, lent(room)?);
            let refusal = octets::cut(&source, number(start)?, number(length)?, &mut output);
            Some(handed_out(refusal, &[output]))
        }
        [b"size", bits] => Some(octets::size(number(bits)?).to_string()),
        [b"first_bits", octet, count] => {
            Some(octets::first_bits(number(octet)?, number(count)?).to_string())
        }
        [b"octet_or_zero", source, place] => {
            let (source, place) = (octets_field(source)?, number::<u32>(place)?);
            Some(octets::octet_or_zero(&source, place as usize).to_string())
        }
        [b"xor", one, other, room] => {
            let (one, other) = (octets_field(one)?, octets_field(other)?);
            let mut output = lent(room)?;
            let refusal = octets::xor(&one, &other, &mut output);
            Some(handed_out(refusal, &[output]))
        }
        _ => None,
    }
}

/// Some octets to cut from: as many as hold the 228 bits of GSM.
const SOURCE: &str = "889EEAAF9ED1BA1ABBD8436232E45728D01AA89133DA73C11EAB68B7D8";

fn cases() -> Vec<String> {
    [cuts(), random_cuts(), sizes(), xors()].concat()
}

/// Cuts at every bit of an octet and at the places that A5/4 uses, within the source,
/// over its end and behind it.
fn cuts() -> Vec<String> {
    let cut = |source: &str, start: u32, length: u32, room: u32| {
        format!("cut {source} {start} {length} {room}")
    };
    let mut lines = Vec::new();
    for start in 0..18 {
        lines.extend((0..19).map(|length| cut(SOURCE, start, length, 3)));
    }
    for start in [0, 1, 113, 114, 115, 119, 120, 227, 228, 231, 232, 233, 240, u32::MAX] {
        lines.extend(
            [1, 8, 9, 113, 114, 115, 232, 348].map(|length| cut(SOURCE, start, length, 44)),
        );
    }
    for start in [0, 7, 8, u32::MAX - 7, u32::MAX] {
        lines.extend([0, 1, 8].map(|length| cut("-", start, length, 1)));
        lines.push(cut("FF", start, u32::MAX, 40));
        lines.push(cut("FF", start, u32::MAX - 7, 40));
        lines.push(cut("FF", start, u32::MAX - 8, 40));
    }
    for length in SIZES {
        let octets = length.div_ceil(8) as u32;
        lines.extend(
            [octets, octets - 1, octets + 1, octets + 40]
                .map(|room| cut(SOURCE, 114, length as u32, room)),
        );
    }
    lines.push(cut("aAbBcCdDeEfF", 4, 40, 5));
    lines.push(cut(&"C3".repeat(2560), 3, 20_477, 2562));
    lines
}

/// Cuts of random octets, whose room seldom is too small; beside every second one a spoiled line.
fn random_cuts() -> Vec<String> {
    let mut random = Random::seeded(5);
    let mut lines = Vec::new();
    for _ in 0..80 {
        let octets = 1 + random.below(60);
        let (start, length) = (random.below(8 * octets + 20), random.below(300));
        let room = (length.div_ceil(8) + random.below(12)).saturating_sub(1);
        let line = format!("cut {} {start} {length} {room}", random.digits(octets));
        lines.extend([spoiled(&line, &mut random), line]);
    }
    lines
}

/// The calls that refuse nothing.
fn sizes() -> Vec<String> {
    let bits = [0, 1, 7, 8, 9, 63, 64, 65, 113, 114, 228, 348, 696, 12_160, 524_287, 524_288];
    let most = [u32::MAX - 8, u32::MAX - 7, u32::MAX - 6, u32::MAX - 1, u32::MAX];
    let mut lines: Vec<String> =
        bits.into_iter().chain(most).map(|bits| format!("size {bits}")).collect();
    for octet in [0x00, 0x01, 0x55, 0x80, 0xA5, 0xFE, 0xFF] {
        let counts = (0..=9).chain([31, 32, 33, 255, 256, 257, u32::MAX]);
        lines.extend(counts.map(|count| format!("first_bits {octet} {count}")));
    }
    for source in ["-", "C3", "00FF", SOURCE] {
        lines.extend((0..31).map(|place| format!("octet_or_zero {source} {place}")));
        lines.push(format!("octet_or_zero {source} {}", u32::MAX));
    }
    lines
}

/// Octets of every two lengths, with short, exact and larger rooms; and every bit.
fn xors() -> Vec<String> {
    let octets = |first: usize, count: usize| {
        shown(&(0..count).map(|place| (first + 37 * place) as u8).collect::<Vec<u8>>())
    };
    let xor = |one: usize, other: usize, room: usize| {
        format!("xor {} {} {room}", octets(0xA5, one), octets(0x3C, other))
    };
    let mut lines = Vec::new();
    for one in [0usize, 1, 2, 7, 8, 9, 16, 255] {
        for other in [0, 1, 2, 7, 8, 9, 16, 255, 2_560] {
            let rooms = [one.saturating_sub(1), one, one + 1, one + 40];
            lines.extend(rooms.map(|room| xor(one, other, room)));
        }
    }
    lines.extend([2_559, 2_560, 65_600].map(|room| xor(2_560, 1_530, room)));
    lines.extend([1_529, 1_530].map(|room| xor(1_530, 2_560, room)));
    lines.extend([1_999, 2_000].map(|room| xor(2_000, 2_048, room)));
    for bit in 0..8 {
        lines.push(format!("xor {:02X} FF 1", 1 << bit));
        lines.push(format!("xor 00 {:02X} 1", 1 << bit));
    }
    lines
}

#[cfg(test)]
mod tests {
    use crate::call;

    fn answer_to(line: &str) -> String {
        call::answer(line.as_bytes()).unwrap_or("?".to_string())
    }

    #[test]
    fn every_octet_of_a_lent_buffer_is_shown() {
        assert_eq!(answer_to("cut F0F0 2 7 3"), "0 C2AAAA");
        assert_eq!(answer_to("cut - 0 0 0"), "0 -");
        assert_eq!(answer_to("cut F0 0 9 1"), "4 AA");
        assert_eq!(answer_to("xor F0FF55 FF0F 4"), "0 0FF055AA");
        assert_eq!(answer_to("xor F0FF55 FF0F 2"), "4 AAAA");
        assert_eq!(answer_to("xor - FF 0"), "0 -");
    }

    #[test]
    fn the_type_of_a_parameter_bounds_its_number() {
        assert_eq!(answer_to("cut - 4294967295 0 0"), "0 -");
        assert_eq!(answer_to("cut - 4294967296 0 0"), "?");
        assert_eq!(answer_to("cut - 0 0 65601"), "?");
        assert_eq!(answer_to("size 4294967295"), "536870912");
        assert_eq!(answer_to("size 4294967296"), "?");
        assert_eq!(answer_to("first_bits 255 4294967295"), "255");
        assert_eq!(answer_to("first_bits 256 0"), "?");
    }
}
