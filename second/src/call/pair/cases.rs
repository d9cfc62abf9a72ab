//! Lines to try f8 and f9 with: published vectors, lengths around the ends of an octet, of a block and
//! of what is allowed, keys, ranges, single bits, random lines; causes and groups have their own files.

use super::given::Given;
use super::{causes, groups};
use crate::cases::{key_of, published, spoiled};
use crate::random::Random;
use crate::vectors;

pub fn lines() -> Vec<String> {
    let parts = [
        published_vectors(),
        lengths(),
        no_lengths(),
        causes::lines(),
        keys(),
        ranges(),
        single_bits(),
        groups::lines(),
        random_lines(),
    ];
    parts.concat()
}

fn published_vectors() -> Vec<String> {
    let files = [vectors::F8, vectors::F9];
    files.into_iter().flat_map(published).map(|published| published.call).collect()
}

/// Lengths around the ends of octets and of f9's blocks, where DIRECTION and the 1 stand in one
/// block, in two or in one of their own; and the greatest.
const LENGTHS: [u32; 20] =
    [1, 2, 7, 8, 9, 16, 61, 62, 63, 64, 65, 125, 126, 127, 128, 129, 190, 191, 19_999, 20_000];

/// The message exact, longer and shorter than its bits; the room too.
fn lengths() -> Vec<String> {
    let mut lines = Vec::new();
    for bits in LENGTHS {
        let octets = bits.div_ceil(8) as usize;
        for direction in [0, 1] {
            let given = |octets| Given { direction, ..Given::of(octets, bits) };
            lines.extend([octets - 1, octets + 1, octets + 40].map(|room| given(octets).f8(room)));
            lines.extend([octets - 1, octets, octets + 1].iter().flat_map(|&one| given(one).all()));
        }
    }
    lines.extend(Given::of(2_560, 20_000).all());
    lines
}

/// No bit, or too many, with a message and a room from nothing to enough; and beside the causes that
/// are named before.
fn no_lengths() -> Vec<String> {
    let mut lines = Vec::new();
    for bits in [0, 20_001, 20_002, 20_480, 65_536, u32::MAX - 7, u32::MAX - 6, u32::MAX] {
        for octets in [0, 3, 2_500, 2_501, 2_560] {
            lines.extend(Given::of(octets, bits).all());
        }
        lines.push(Given::of(2, bits).f8(65_600));
        lines.extend(Given { key: key_of(15), ..Given::of(2, bits) }.all());
        lines.extend(Given { direction: 2, ..Given::of(2, bits) }.all());
    }
    lines
}

/// Every length of a key from 0 to 33 octets, and the longest that a line holds.
fn keys() -> Vec<String> {
    let lengths = (0..=33).chain([2_560]);
    lengths.flat_map(|octets| Given { key: key_of(octets), ..Given::of(12, 90) }.all()).collect()
}

/// Numbers at the ends of their range and of their type.
fn ranges() -> Vec<String> {
    let given = || Given::of(12, 90);
    let mut lines = Vec::new();
    for bearer in [0, 1, 15, 16, 31, 32, 33, 63, 64, 255] {
        lines.push(Given { bearer, ..given() }.f8(12));
    }
    for direction in [0, 1, 2, 3, 128, 255] {
        lines.extend(Given { direction, ..given() }.all());
    }
    for word in [0, 1, 0x7FFF_FFFF, 0x8000_0000, u32::MAX] {
        lines.extend(Given { count: word, ..given() }.all());
        lines.extend(Given { fresh: word, ..given() }.all());
        lines.extend(Given { count: word, fresh: word, ..given() }.all());
    }
    lines
}

/// One bit alone in each place of COUNT, of FRESH and of BEARER; one bit of a message of more than a
/// block changed.
fn single_bits() -> Vec<String> {
    let zeros = || Given { count: 0, bearer: 0, fresh: 0, direction: 0, ..Given::of(9, 67) };
    let mut lines = Vec::new();
    for place in 0..32 {
        let count = Given { count: 1 << place, ..zeros() };
        lines.extend([count.f8(9), count.f9(), Given { fresh: 1 << place, ..zeros() }.f9()]);
    }
    lines.extend((0..5).map(|place| Given { bearer: 1 << place, ..zeros() }.f8(9)));
    for place in 0..67 {
        let mut given = zeros();
        given.message[place / 8] ^= 0x80 >> (place % 8);
        lines.extend([given.f8(9), given.f9(), given.check(zeros().code())]);
    }
    lines
}

fn random_lines() -> Vec<String> {
    let mut random = Random::seeded(32);
    let mut lines: Vec<String> = (0..400).map(|_| random_line(&mut random)).collect();
    let spoiled: Vec<String> =
        lines.iter().step_by(2).map(|line| spoiled(line, &mut random)).collect();
    lines.extend(spoiled);
    lines
}

/// Mostly a call that succeeds, with octets past the message's last; a range, a key, a message or a
/// room is now and then just beyond. Every second code checked is right.
fn random_line(random: &mut Random) -> String {
    let bits = random.below(1200);
    let octets = (bits.div_ceil(8) + random.below(12)).saturating_sub(1);
    let key_octets = random.one_of(&[16, 16, 16, 16, 16, 16, 8, 15]);
    let mut some = |count| (0..count).map(|_| random.octet()).collect::<Vec<u8>>();
    let (key, message) = (some(key_octets), some(octets));
    let given = Given {
        key,
        count: random.number() as u32,
        bearer: random.below(33) as u8,
        fresh: random.number() as u32,
        direction: random.one_of(&[0, 0, 0, 1, 1, 1, 1, 2]),
        message,
        bits: bits as u32,
    };
    match random.below(4) {
        0 | 1 => given.f8((bits.div_ceil(8) + random.below(12)).saturating_sub(1)),
        2 => given.f9(),
        _ => given.check(given.code() ^ random.one_of(&[0, 0, 0, 1, 0x8000, 1 << 31])),
    }
}

#[cfg(test)]
mod tests {
    use super::*;
    use crate::call::pair::tests::answer_to;

    #[test]
    fn every_line_but_the_spoiled_ones_at_the_end_is_of_the_form() {
        let lines = lines();
        for line in &lines[..lines.len() - 200] {
            assert_ne!(answer_to(line), "?", "{line}");
        }
    }
}
