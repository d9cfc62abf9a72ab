//! The lines of the ciphers and the keystreams, and their answers.

mod cases;

use super::form::{handed_out, lent, number, octets_field, shown};
use super::Subject;
use crate::product::ciphers::{self, Numbers};

pub const SUBJECT: Subject = Subject {
    forms: &[
        "prepare_key KEY -> 0 1",
        "kasumi KEY BLOCK:u64 -> 0 1",
        "kgcore KEY CA:u8 CB:u8 CC:u32 CD:u8 CE:u16 CL:u32 ROOM:size -> 0 1 2 3 4",
        "gsm KEY COUNT:u32 ROOM1:size ROOM2:size -> 0 1 2 4",
        "ecsd KEY COUNT:u32 ROOM1:size ROOM2:size -> 0 1 2 4",
        "gea4 KEY INPUT:u32 DIRECTION:u8 M:u32 ROOM:size -> 0 1 2 3 4",
    ],
    answer,
    cases: cases::lines,
};

fn answer(fields: &[&[u8]]) -> Option<String> {
    match *fields {
        [b"prepare_key", key] => {
            let (refusal, key) = ciphers::prepare_key(&octets_field(key)?);
            Some(format!("{refusal} {}", shown(&key)))
        }
        [b"kasumi", key, block] => {
            let (refusal, block) = ciphers::kasumi(&octets_field(key)?, number(block)?);
            Some(format!("{refusal} {block:016X}"))
        }
        [b"kgcore", key, ca, cb, cc, cd, ce, cl, room] => {
            let numbers = Numbers {
                ca: number(ca)?,
                cb: number(cb)?,
                cc: number(cc)?,
                cd: number(cd)?,
                ce: number(ce)?,
                cl: number(cl)?,
            };
            let (key, mut output) = (octets_field(key)?, lent(room)?);
            let refusal = ciphers::kgcore(&key, &numbers, &mut output);
            Some(handed_out(refusal, &[output]))
        }
        [b"gsm", key, count, room1, room2] => a5(ciphers::gsm, key, count, room1, room2),
        [b"ecsd", key, count, room1, room2] => a5(ciphers::ecsd, key, count, room1, room2),
        [b"gea4", key, input, direction, m, room] => {
            let (key, mut output) = (octets_field(key)?, lent(room)?);
            let (input, direction, m) = (number(input)?, number(direction)?, number(m)?);
            let refusal = ciphers::gea4(&key, input, direction, m, &mut output);
            Some(handed_out(refusal, &[output]))
        }
        _ => None,
    }
}

fn a5(
    call: fn(&[u8], u32, &mut [u8], &mut [u8]) -> u8,
    key: &[u8],
    count: &[u8],
    room1: &[u8],
    room2: &[u8],
) -> Option<String> {
    let (mut block1, mut block2) = (lent(room1)?, lent(room2)?);
    let refusal = call(&octets_field(key)?, number(count)?, &mut block1, &mut block2);
    Some(handed_out(refusal, &[block1, block2]))
}

#[cfg(test)]
mod tests {
    use crate::call;

    fn answer_to(line: &str) -> String {
        call::answer(line.as_bytes()).unwrap_or("?".to_string())
    }

    #[test]
    fn every_octet_of_a_lent_buffer_is_shown() {
        assert_eq!(answer_to("kasumi 00 0"), "1 0000000000000000");
        assert_eq!(answer_to("gsm - 4194304 1 0"), "1 AA -");
        let key = "000102030405060708090A0B0C0D0E0F";
        assert_eq!(answer_to(&format!("prepare_key {key}")), format!("0 {key}"));
        assert_eq!(answer_to(&format!("prepare_key {key}00")), format!("1 {}", "00".repeat(16)));
    }

    #[test]
    fn the_type_of_a_parameter_bounds_its_number() {
        let kgcore = |ca: &str| answer_to(&format!("kgcore - {ca} 0 0 0 0 1 0"));
        assert_eq!(kgcore("255"), "1 -");
        assert_eq!(kgcore("0x00000000000000ff"), "1 -");
        assert_eq!(kgcore("0000000255"), "1 -");
        for bad in ["256", "0x100", "00000000255", "0x000000000000000ff", "0Xff", "0x", "-1"] {
            assert_eq!(kgcore(bad), "?");
        }
    }
}
