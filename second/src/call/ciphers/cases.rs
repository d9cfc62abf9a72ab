//! Lines to try the ciphers and the keystreams with: published vectors, document 01's examples, edges,
//! every refusal alone and with others, random lines.

use crate::call::form::shown;
use crate::cases::{key_of, published, spoiled, KEY, SIZES};
use crate::random::Random;
use crate::vectors;

/// A key that 1 refuses.
const BAD_KEY: &str = "000102030405060708090A0B0C0D0E";

pub fn lines() -> Vec<String> {
    let parts = [
        published_vectors(),
        examples(),
        sizes(),
        rooms(),
        refusals(),
        keys(),
        ranges(),
        single_bits(),
        number_forms(),
        random_lines(),
    ];
    parts.concat()
}

fn published_vectors() -> Vec<String> {
    let files = [vectors::KASUMI, vectors::A5, vectors::GEA];
    files.into_iter().flat_map(published).map(|published| published.call).collect()
}

/// Document 01: "M 65,536 works, 65,537 gives 3", with room for either.
fn examples() -> Vec<String> {
    [65_536, 65_537].map(|m| format!("gea4 {KEY} 0x98000000 1 {m} {m}")).to_vec()
}

fn kgcore(cl: usize, room: usize) -> String {
    format!("kgcore {KEY} 0xA5 31 0xDEADBEEF 1 0xBEEF {cl} {room}")
}

fn gea4(m: usize, room: usize) -> String {
    format!("gea4 {KEY} 0xDEADBEEF 0 {m} {room}")
}

/// CL and M from none to too many. The large results make up most of the output, so that
/// only a few rooms stand beside a large size.
fn sizes() -> Vec<String> {
    let mut lines = Vec::new();
    for size in SIZES {
        let octets = size.div_ceil(8);
        lines.extend([octets, octets - 1, octets + 1, octets + 40].map(|room| kgcore(size, room)));
        lines.extend([size, size - 1, size + 1, size + 40].map(|room| gea4(size, room)));
    }
    let no_cl = [0, 524_289, 4_294_967_288, 4_294_967_289, 4_294_967_295];
    let no_m = [0, 65_537, 536_870_912, 536_870_913, 4_294_967_295];
    for room in [0, 3] {
        lines.extend(no_cl.map(|cl| kgcore(cl, room)));
        lines.extend(no_m.map(|m| gea4(m, room)));
    }
    let large_cl = [(524_287, 65_536), (524_288, 65_600), (524_288, 65_535), (524_289, 65_537)];
    let large_m = [(65_535, 65_536), (65_536, 65_535)];
    lines.extend(large_cl.map(|(cl, room)| kgcore(cl, room)));
    lines.extend(large_m.map(|(m, room)| gea4(m, room)));
    lines
}

/// The two lent blocks of A5/4, each short in turn, exact, and longer.
fn rooms() -> Vec<String> {
    let mut lines = Vec::new();
    for (name, exact) in [("gsm", 15), ("ecsd", 44)] {
        let rooms = [0, 1, exact - 1, exact, exact + 1, exact + 40];
        for room1 in rooms {
            lines.extend(rooms.map(|room2| format!("{name} {KEY} 0x0A59B4 {room1} {room2}")));
        }
    }
    lines
}

/// Every set of causes that can meet in a call, so that the order of the refusals shows.
fn refusals() -> Vec<String> {
    let mut lines = Vec::new();
    for key in [KEY, BAD_KEY] {
        for (cb, cd) in [(31, 1), (32, 1), (31, 2), (32, 2)] {
            for cl in [9, 0, 524_289] {
                lines
                    .extend([2, 1].map(|room| format!("kgcore {key} 7 {cb} 8 {cd} 9 {cl} {room}")));
            }
        }
        for (name, exact) in [("gsm", 15), ("ecsd", 44)] {
            for count in [4_194_303, 4_194_304] {
                for room1 in [exact, exact - 1] {
                    lines.extend(
                        [exact, exact - 1]
                            .map(|room2| format!("{name} {key} {count} {room1} {room2}")),
                    );
                }
            }
        }
        for direction in [1, 2] {
            for m in [9, 0, 65_537] {
                lines.extend([9, 8].map(|room| format!("gea4 {key} 7 {direction} {m} {room}")));
            }
        }
    }
    lines
}

/// Every length of a key from 0 to 33 octets, and the longest that a line holds. No two octets that
/// stand near each other are alike, so that it shows which stands where in the 16.
fn keys() -> Vec<String> {
    let mut lines = Vec::new();
    for octets in (0..=33).chain([2560]) {
        let key = shown(&key_of(octets));
        lines.push(format!("prepare_key {key}"));
        lines.push(format!("kasumi {key} 0x0123456789ABCDEF"));
        lines.push(format!("kgcore {key} 1 2 3 0 4 64 8"));
        lines.push(format!("gsm {key} 5 15 15"));
        lines.push(format!("ecsd {key} 5 44 44"));
        lines.push(format!("gea4 {key} 5 1 8 8"));
    }
    lines
}

/// Numbers at the ends of their range and of their type.
fn ranges() -> Vec<String> {
    let mut lines = Vec::new();
    for count in [0u32, 1, 2_097_152, 4_194_303, 4_194_304, 8_388_607, u32::MAX] {
        lines.push(format!("gsm {KEY} {count} 15 15"));
        lines.push(format!("ecsd {KEY} {count} 44 44"));
    }
    for cb in [0, 1, 15, 16, 31, 32, 33, 63, 64, 255] {
        lines.push(format!("kgcore {KEY} 0 {cb} 0 0 0 64 8"));
    }
    for bit in [0, 1, 2, 3, 128, 255] {
        lines.push(format!("kgcore {KEY} 0 0 0 {bit} 0 64 8"));
        lines.push(format!("gea4 {KEY} 0 {bit} 8 8"));
    }
    for input in [0, 1, 0x7FFF_FFFF, 0x8000_0000u32, u32::MAX] {
        lines.push(format!("kgcore {KEY} 255 31 {input} 1 65535 64 8"));
        lines.push(format!("gea4 {KEY} {input} 1 8 8"));
    }
    lines
}

/// One bit alone in each place of the register, of the block and of the key.
fn single_bits() -> Vec<String> {
    let mut lines = Vec::new();
    for place in 0..32 {
        lines.push(format!("kgcore {KEY} 0 0 0x{:X} 0 0 64 8", 1u32 << place));
    }
    for place in 0..8 {
        lines.push(format!("kgcore {KEY} 0x{:X} 0 0 0 0 64 8", 1 << place));
    }
    for place in 0..16 {
        lines.push(format!("kgcore {KEY} 0 0 0 0 0x{:X} 64 8", 1 << place));
    }
    for place in 0..64 {
        lines.push(format!("kasumi {KEY} 0x{:X}", 1u64 << place));
    }
    for place in 0..128 {
        lines.push(format!("kasumi {:032X} 0", 1u128 << place));
    }
    lines
}

/// The forms of numbers above one digit, and of the largest.
fn number_forms() -> Vec<String> {
    let tens = ["10", "0010", "0000000010", "0xa", "0xA", "0x0A", "0x000000000000000a"];
    let mut lines =
        tens.map(|ten| format!("kgcore {KEY} {ten} {ten} {ten} 1 {ten} {ten} {ten}")).to_vec();
    let blocks = ["4294967296", "9999999999", "0xfedcba9876543210", "0xFFFFFFFFFFFFFFFF"];
    lines.extend(blocks.map(|block| format!("kasumi {KEY} {block}")));
    lines
}

fn random_lines() -> Vec<String> {
    let mut random = Random::seeded(4);
    let mut lines: Vec<String> = (0..400).map(|_| random_line(&mut random)).collect();
    let spoiled: Vec<String> =
        lines.iter().step_by(2).map(|line| spoiled(line, &mut random)).collect();
    lines.extend(spoiled);
    lines
}

/// Mostly a call that succeeds; a range, a room or a key is now and then just beyond. A key of 8
/// octets is one but for KASUMI and KGCORE.
fn random_line(random: &mut Random) -> String {
    let key_octets = random.one_of(&[16, 16, 16, 16, 8, 8, 8, 15]);
    let key = random.digits(key_octets);
    let word = random.number() as u32;
    let bit = random.one_of(&[0, 0, 0, 1, 1, 1, 1, 2]);
    match random.below(5) {
        0 => format!("kasumi {key} 0x{:x}", random.number()),
        1 => {
            let (ca, cb, ce) = (random.octet(), random.below(33), random.below(65_536));
            let cl = random.below(1200);
            let room = random_room(cl.div_ceil(8), random);
            format!("kgcore {key} {ca} {cb} {word} {bit} 0x{ce:X} {cl} {room}")
        }
        2 | 3 => {
            let (name, exact) = random.one_of(&[("gsm", 15), ("ecsd", 44)]);
            let count = word % 4_200_000;
            let (room1, room2) = (random_room(exact, random), random_room(exact, random));
            format!("{name} {key} {count} {room1} {room2}")
        }
        _ => {
            let m = random.below(200);
            format!("gea4 {key} 0x{word:08X} {bit} {m} {}", random_room(m, random))
        }
    }
}

/// A room that seldom is too small.
fn random_room(needed: usize, random: &mut Random) -> usize {
    (needed + random.below(12)).saturating_sub(1)
}
