//! The lines of MILENAGE, and lines to try them with: published vectors, from the challenge to f8 and f9
//! by the keys that it gives, lengths, every set of causes, rooms, single bits, random lines.

use super::form::{handed_out, lent, octets_field, shown};
use super::Subject;
use crate::cases::{key_of, published, spoiled};
use crate::product::milenage::{self, Given, Numbered};
use crate::random::Random;
use crate::vectors;

pub const SUBJECT: Subject = Subject {
    forms: &[
        "opc KEY OP ROOM:size -> 0 1 4",
        "f1 KEY OPC RAND SQN AMF ROOM:size -> 0 1 4 5",
        "f1_star KEY OPC RAND SQN AMF ROOM:size -> 0 1 4 5",
        "f2 KEY OPC RAND ROOM:size -> 0 1 4",
        "f3 KEY OPC RAND ROOM:size -> 0 1 4",
        "f4 KEY OPC RAND ROOM:size -> 0 1 4",
        "f5 KEY OPC RAND ROOM:size -> 0 1 4",
        "f5_star KEY OPC RAND ROOM:size -> 0 1 4",
    ],
    answer,
    cases,
};

/// Each answers REFUSAL OUTPUT.
fn answer(fields: &[&[u8]]) -> Option<String> {
    let (name, fields) = fields.split_first()?;
    let (room, fields) = fields.split_last()?;
    let octets: Vec<Vec<u8>> =
        fields.iter().map(|field| octets_field(field)).collect::<Option<_>>()?;
    let octets: Vec<&[u8]> = octets.iter().map(Vec::as_slice).collect();
    let mut output = lent(room)?;
    let refusal = match (*name, &octets[..]) {
        (b"opc", &[key, op]) => milenage::opc(key, op, &mut output),
        (name, &[key, opc, rand]) => {
            let call = match name {
                b"f2" => milenage::f2,
                b"f3" => milenage::f3,
                b"f4" => milenage::f4,
                b"f5" => milenage::f5,
                b"f5_star" => milenage::f5_star,
                _ => return None,
            };
            call(Given { key, opc, rand }, &mut output)
        }
        (name, &[key, opc, rand, sqn, amf]) => {
            let call = match name {
                b"f1" => milenage::f1,
                b"f1_star" => milenage::f1_star,
                _ => return None,
            };
            call(Given { key, opc, rand }, Numbered { sqn, amf }, &mut output)
        }
        _ => return None,
    };
    Some(handed_out(refusal, &[output]))
}

/// A call: its name, how many of the fields it takes and the room that it needs.
struct Call {
    name: &'static str,
    taken: usize,
    room: usize,
}

const CALLS: [Call; 8] = [
    Call { name: "opc", taken: 2, room: 16 },
    Call { name: "f1", taken: 5, room: 8 },
    Call { name: "f1_star", taken: 5, room: 8 },
    Call { name: "f2", taken: 3, room: 8 },
    Call { name: "f3", taken: 3, room: 16 },
    Call { name: "f4", taken: 3, room: 16 },
    Call { name: "f5", taken: 3, room: 6 },
    Call { name: "f5_star", taken: 3, room: 6 },
];

/// The fields: key, OP or OPc, RAND, SQN and AMF.
type Fields = [Vec<u8>; 5];

/// How many octets each has.
const LENGTHS: [usize; 5] = [16, 16, 16, 6, 2];

impl Call {
    fn line(&self, fields: &Fields, room: usize) -> String {
        let fields: Vec<String> = fields[..self.taken].iter().map(|field| shown(field)).collect();
        format!("{} {} {room}", self.name, fields.join(" "))
    }
}

/// Fields of these lengths, no two alike.
fn of_lengths(lengths: [usize; 5]) -> Fields {
    let mut random = Random::seeded(51);
    lengths.map(|octets| (0..octets).map(|_| random.octet()).collect())
}

fn cases() -> Vec<String> {
    let parts = [
        published_sets().concat(),
        lengths(),
        causes().concat(),
        rooms(),
        single_bits(),
        random_lines(),
    ];
    parts.concat()
}

/// What a line hands out.
fn handed(line: &str) -> String {
    let answer = super::answer(line.as_bytes()).expect("a line of the form");
    answer.strip_prefix("0 ").expect("a call that is not refused").to_string()
}

/// The eight calls of each published set; then a message, ciphered by f8 under the CK of its f3, and its
/// code by f9 under the IK of its f4, made and checked.
fn published_sets() -> Vec<Vec<String>> {
    let calls = published(vectors::MILENAGE);
    let message = shown(b"keys from a challenge");
    let with_keys = |set: &[vectors::Published]| {
        let mut lines: Vec<String> = set.iter().map(|published| published.call.clone()).collect();
        let (ck, ik) = (handed(&lines[4]), handed(&lines[5]));
        let f9 = format!("{ik} 7 0x5EED 1 {message} 168");
        let code = handed(&format!("f9 {f9}"));
        lines.push(format!("f8 {ck} 7 3 1 {message} 168 21"));
        lines.push(format!("f9 {f9}"));
        lines.push(format!("check_code {f9} 0x{code}"));
        lines
    };
    calls.chunks(8).map(with_keys).collect()
}

/// Every length from 0 to 33 octets: of the key in each call, of all other fields in `opc` and f1. In
/// the other calls these have the lengths nearest to theirs.
fn lengths() -> Vec<String> {
    let mut lines = Vec::new();
    for call in &CALLS {
        for place in 0..call.taken {
            let own = LENGTHS[place];
            let all = place == 0 || ["opc", "f1"].contains(&call.name);
            let octets = if all { 0..=33 } else { own - 1..=own + 1 };
            lines.extend(octets.map(|octets| {
                let mut fields = of_lengths(LENGTHS);
                fields[place] = key_of(octets);
                call.line(&fields, call.room)
            }));
        }
    }
    lines
}

/// Of each call every set of causes: a place of a set for each field, which is an octet shorter or longer,
/// and one for the room.
fn causes() -> Vec<Vec<String>> {
    let sets = |call: &Call| {
        let line = |set: usize| {
            let has = |place: usize| set >> place & 1 == 1;
            let lengths = std::array::from_fn(|place| match (has(place), (set + place) % 2) {
                (false, _) => LENGTHS[place],
                (true, 0) => LENGTHS[place] - 1,
                (true, _) => LENGTHS[place] + 1,
            });
            call.line(&of_lengths(lengths), call.room - usize::from(has(call.taken)))
        };
        (0..2 << call.taken).map(line).collect()
    };
    CALLS.iter().map(sets).collect()
}

/// No room, one octet short, exact, longer.
fn rooms() -> Vec<String> {
    let rooms = |call: &Call| {
        [0, call.room - 1, call.room, call.room + 1, call.room + 40]
            .map(|room| call.line(&of_lengths(LENGTHS), room))
    };
    CALLS.iter().flat_map(rooms).collect()
}

/// One bit alone in each place of each field, in places apart: beside a bit of SQN or AMF in f1 and f1*
/// by turns, else in the other calls by turns.
fn single_bits() -> Vec<String> {
    let bit = |octets: usize, place: usize| {
        let mut field = vec![0; octets];
        field[place / 8] = 0x80 >> (place % 8);
        field
    };
    let line = |place: usize| {
        let [key, opc, rand] = [0, 43, 86].map(|apart| bit(16, (place + apart) % 128));
        let number = bit(8, place % 64);
        let fields = [key, opc, rand, number[..6].to_vec(), number[6..].to_vec()];
        let turns: &[usize] = if place < 64 { &[1, 2] } else { &[0, 3, 4, 5, 6, 7] };
        let call = &CALLS[turns[place % turns.len()]];
        call.line(&fields, call.room)
    };
    (0..128).map(line).collect()
}

/// Mostly a call that succeeds; a field or a room is now and then just beyond.
fn random_lines() -> Vec<String> {
    let mut random = Random::seeded(52);
    let mut lines = Vec::new();
    for _ in 0..60 {
        let call = &CALLS[random.below(CALLS.len())];
        let fields = LENGTHS.map(|octets| {
            let octets = octets + random.one_of(&[1, 1, 1, 1, 1, 1, 1, 1, 1, 1, 0, 2]) - 1;
            random.digits(octets)
        });
        let room = (call.room + random.below(12)).saturating_sub(1);
        lines.push(format!("{} {} {room}", call.name, fields[..call.taken].join(" ")));
    }
    let spoiled: Vec<String> =
        lines.iter().step_by(2).map(|line| spoiled(line, &mut random)).collect();
    lines.extend(spoiled);
    lines
}

#[cfg(test)]
mod tests {
    use super::*;
    use crate::call;

    fn answer_to(line: &str) -> String {
        call::answer(line.as_bytes()).unwrap_or("?".to_string())
    }

    #[test]
    fn every_octet_of_a_lent_buffer_is_shown() {
        let sixteen = "00".repeat(16);
        for Call { name, taken, room } in &CALLS {
            let fields = [&sixteen, &sixteen, &sixteen, "000000000000", "0000"][..*taken].join(" ");
            let exact = answer_to(&format!("{name} {fields} {room}"));
            assert_eq!(exact.len(), 2 + 2 * room);
            assert_eq!(answer_to(&format!("{name} {fields} {}", room + 2)), format!("{exact}AAAA"));
            let short = format!("4 {}", "AA".repeat(room - 1));
            assert_eq!(answer_to(&format!("{name} {fields} {}", room - 1)), short);
            assert_eq!(answer_to(&format!("{name} {} 1", vec!["-"; *taken].join(" "))), "1 AA");
            assert_eq!(answer_to(&format!("{name} {fields} - 1")), "?");
        }
    }

    #[test]
    fn every_line_but_the_spoiled_ones_at_the_end_is_of_the_form() {
        let lines = cases();
        for line in &lines[..lines.len() - 30] {
            assert_ne!(answer_to(line), "?", "{line}");
        }
    }

    #[test]
    fn the_first_cause_of_every_set_is_named() {
        for (call, lines) in CALLS.iter().zip(causes()) {
            assert_eq!(lines.len(), 2 << call.taken);
            for (set, line) in lines.iter().enumerate() {
                let named = match set.trailing_zeros() as usize {
                    place if place < call.taken.min(3) => "1",
                    place if place < call.taken => "5",
                    place if place == call.taken => "4",
                    _ => "0",
                };
                assert_eq!(answer_to(line).split(' ').next(), Some(named), "{line}");
            }
        }
    }

    #[test]
    fn a_bit_more_is_another_answer() {
        let mut answers: Vec<String> = single_bits().iter().map(|line| answer_to(line)).collect();
        assert!(answers.iter().all(|answer| answer.starts_with("0 ")));
        answers.sort();
        answers.dedup();
        assert_eq!(answers.len(), 128);
    }

    #[test]
    fn the_keys_of_each_challenge_serve_f8_and_f9_and_the_code_is_right() {
        let sets = published_sets();
        assert_eq!(sets.len(), 19);
        for lines in sets {
            let answers: Vec<String> = lines.iter().map(|line| answer_to(line)).collect();
            let key_of = |place: usize| format!("0 {}", lines[place].split(' ').nth(1).unwrap());
            assert_eq!(answers[0].strip_prefix("0 "), lines[1].split(' ').nth(2));
            assert_eq!((&answers[4], &answers[5]), (&key_of(8), &key_of(9)));
            assert_eq!((key_of(9), answers[10].as_str()), (key_of(10), "0 1"));
        }
    }

    #[test]
    fn f1_and_f1_star_are_the_halves_of_one_string() {
        let fields = of_lengths(LENGTHS);
        let [f1, f1_star] = [1, 2].map(|place| handed(&CALLS[place].line(&fields, 8)));
        let [key, opc, rand, sqn, amf] = fields.map(|field| shown(&field));
        let xor = |one: &str, other: &str| handed(&format!("xor {one} {other} 16"));
        let e = |block: &str| handed(&format!("aes {key} {block} 16"));
        let in1 = xor(&format!("{sqn}{amf}{sqn}{amf}"), &opc);
        let turned = format!("{}{}", &in1[16..], &in1[..16]);
        let out1 = xor(&e(&xor(&e(&xor(&rand, &opc)), &turned)), &opc);
        assert_eq!(f1 + &f1_star, out1);
    }
}
