//! The lines of what both ends of a link share, and lines to try them with.

use super::ends::{link, opened};
use super::form::{handed_out, lent, number, octets_field, shown};
use super::Subject;
use crate::cases::{key_of, KEY};
use crate::link::ends::cipher;
use crate::link::services::assigned;
use crate::link::states::open_link;
use crate::random::Random;

pub const SUBJECT: Subject = Subject {
    forms: &[
        "open_link KEY IOV:u32 SAPI:u8 DIRECTION:u8 -> 0 1 2",
        "link_can_arise LINK",
        "cipher LINK NUMBER:u32 PAYLOAD ROOM:size -> 0 3 4 12",
    ],
    answer,
    cases: || [links(), ciphers(), random_ciphers()].concat(),
};

fn answer(fields: &[&[u8]]) -> Option<String> {
    match *fields {
        [b"open_link", key, iov, sapi, direction] => opened(open_link, key, iov, sapi, direction),
        [b"link_can_arise", key, iov, sapi, direction] => {
            let arises = !link(key, iov, sapi, direction)?.cannot_arise();
            Some(u8::from(arises).to_string())
        }
        [b"cipher", key, iov, sapi, direction, n, payload, room] => {
            let link = link(key, iov, sapi, direction)?;
            let (payload, mut output) = (octets_field(payload)?, lent(room)?);
            let refusal = cipher(link, number(n)?, &payload, &mut output);
            Some(handed_out(refusal, &[output]))
        }
        _ => None,
    }
}

/// Every service number with directions near their end, and keys of 0 to 33 octets.
fn links() -> Vec<String> {
    let mut lines = Vec::new();
    for sapi in 0..=u8::MAX {
        for direction in [0, 1, 2, 255] {
            lines.push(format!("open_link {KEY} 0x1234567 {sapi} {direction}"));
            lines.push(format!("link_can_arise {KEY} 0x1234567 {sapi} {direction}"));
        }
    }
    for octets in 0..=33 {
        let key = shown(&key_of(octets));
        lines.extend([3, 4].map(|sapi| format!("open_link {key} 0 {sapi} 1")));
    }
    lines
}

/// Sizes, rooms and links at their edges, and causes that meet.
fn ciphers() -> Vec<String> {
    let cipher = |sapi: u8, direction: u8, n: u32, octets: usize, room: usize| {
        let payload = shown(&vec![0x5A; octets]);
        format!("cipher {KEY} 0x1234567 {sapi} {direction} {n} {payload} {room}")
    };
    let mut lines = Vec::new();
    for octets in [0usize, 1, 2, 8, 9, 1_519, 1_520, 1_521, 2_560] {
        for room in [0, octets.saturating_sub(1), octets, octets + 3] {
            lines.push(cipher(3, 0, 580, octets, room));
        }
    }
    for (sapi, direction) in [(1, 0), (11, 1), (4, 0), (16, 1), (3, 2), (255, 255)] {
        for octets in [0, 4] {
            lines.extend([3, 4].map(|room| cipher(sapi, direction, 1, octets, room)));
        }
    }
    let numbers = [0, 511, 512, (1 << 27) - 1, 1 << 27, u32::MAX];
    lines.extend(numbers.map(|n| cipher(7, 1, n, 12, 16)));
    lines
}

fn random_ciphers() -> Vec<String> {
    let mut random = Random::seeded(21);
    let mut lines = Vec::new();
    for _ in 0..60 {
        let (key, octets) = (random.digits(16), 1 + random.below(40));
        let (sapi, direction) = (random.one_of(&assigned()), random.below(3));
        let (iov, n) = (random.number() as u32, random.number() as u32);
        let room = octets + random.below(4) - usize::from(octets > 1 && random.below(5) == 0);
        let payload = random.digits(octets);
        lines.push(format!("cipher {key} {iov} {sapi} {direction} {n} {payload} {room}"));
    }
    lines
}

#[cfg(test)]
mod tests {
    use crate::call;

    const KEY: &str = "000102030405060708090A0B0C0D0E0F";

    fn answer_to(line: &str) -> String {
        call::answer(line.replace('K', KEY).as_bytes()).unwrap_or("?".to_string())
    }

    #[test]
    fn what_is_ciphered_twice_is_back() {
        let once = answer_to("cipher K 0x1234567 3 0 580 48656C6C6F 5");
        let ciphered = once.strip_prefix("0 ").expect("not refused");
        let twice = answer_to(&format!("cipher K 0x1234567 3 0 580 {ciphered} 6"));
        assert_eq!(twice, "0 48656C6C6FAA");
    }

    #[test]
    fn a_sealed_frame_holds_the_ciphered_payload() {
        let sealed = answer_to("seal K 0x1234567 3 0 580 600 48656C6C6F 11");
        let ciphered = answer_to("cipher K 0x1234567 3 0 580 48656C6C6F 5");
        assert_eq!(sealed[sealed.len() - 10..], ciphered[2..]);
    }

    #[test]
    fn a_refused_link_cannot_arise() {
        let none = answer_to("open_link K 0 4 0");
        let link = none.strip_prefix("2 ").expect("refused with 2");
        assert_eq!(answer_to(&format!("link_can_arise {link}")), "0");
        assert_eq!(answer_to(&format!("cipher {link} 0 AA 1")), "12 AA");
    }
}
