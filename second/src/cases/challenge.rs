//! The test input for the program `challenge`: the MILENAGE vectors, lengths, every set of causes, the
//! longest line, every kind of bad line, random lines.

use super::{ended, key_of, spoiled, KEY, NEAR_HEX};
use crate::lines::hex;
use crate::random::Random;
use crate::vectors;

const GOOD_LINE: &str = "000102030405060708090A0B0C0D0E0F OP 101112131415161718191A1B1C1D1E1F \
    202122232425262728292A2B2C2D2E2F 303132333435 4041";

/// The places of the values in a line, and how many octets each has: K, OP or OPc, RAND, SQN, AMF.
const VALUES: [(usize, usize); 5] = [(0, 16), (2, 16), (3, 16), (4, 6), (5, 2)];

pub fn input() -> String {
    let parts = [
        published_vectors(),
        lengths(),
        causes(),
        longest(),
        bad_fields(),
        bad_lines(),
        random_lines(),
    ];
    ended(parts.concat())
}

/// The good line with other fields in some places.
fn with(others: &[(usize, &str)]) -> String {
    let mut fields: Vec<&str> = GOOD_LINE.split(' ').collect();
    for &(place, other) in others {
        fields[place] = other;
    }
    fields.join(" ")
}

/// A line without its last two fields.
fn without_numbers(line: &str) -> String {
    line.split(' ').take(4).collect::<Vec<&str>>().join(" ")
}

/// Each set with OP and with OPc, with SQN and AMF and without them, in letters of either case.
fn published_vectors() -> Vec<String> {
    let sets = vectors::sets(vectors::MILENAGE).expect("the copied vector files are of their form");
    let mut lines = Vec::new();
    for set in sets {
        let value = |name: &str| set.value(name).expect("a set of MILENAGE has all values");
        for lower in [false, true] {
            let digits = |name: &str| match lower {
                true => value(name).to_lowercase(),
                false => value(name).to_string(),
            };
            let [k, op, opc] = ["k", "op", "opc"].map(digits);
            let [rand, sqn, amf] = ["rand", "sqn", "amf"].map(digits);
            for (word, value) in [("OP", op), ("OPc", opc)] {
                lines.push(format!("{k} {word} {value} {rand}"));
                lines.push(format!("{k} {word} {value} {rand} {sqn} {amf}"));
            }
        }
    }
    lines
}

/// Every length of each value from 1 to 33 octets; of those that a line without SQN and AMF has, in
/// such a line too, and there with OPc. SQN from 27 octets on and AMF from 23 on make the line too long.
fn lengths() -> Vec<String> {
    let mut lines = Vec::new();
    for octets in 1..=33 {
        let other = hex(&key_of(octets));
        for (place, _) in VALUES {
            lines.push(with(&[(place, &other)]));
            if place < 4 {
                lines.push(without_numbers(&with(&[(1, "OPc"), (place, &other)])));
            }
        }
    }
    lines
}

/// Every set of values that are an octet longer or shorter.
fn causes() -> Vec<String> {
    let line = |set: usize| {
        let has = |value: usize| set >> value & 1 == 1;
        let octets = |value: usize| VALUES[value].1 + (set + value) % 2 * 2 - 1;
        let others: Vec<(usize, String)> = (0..VALUES.len())
            .filter(|&value| has(value))
            .map(|value| (VALUES[value].0, hex(&key_of(octets(value)))))
            .collect();
        let others: Vec<_> = others.iter().map(|(place, other)| (*place, other.as_str())).collect();
        with(&others)
    };
    (0..1 << VALUES.len()).map(line).collect()
}

/// Lines of 157 to 163 octets: of the form, by each value in turn, with and without SQN and AMF; and not.
fn longest() -> Vec<String> {
    let mut lines = Vec::new();
    for octets in 157..=163 {
        for (place, _) in VALUES {
            for word in ["OP", "OPc"] {
                let empty = with(&[(1, word), (place, "")]);
                lines.extend(filled(&empty, place, octets));
                if place < 4 {
                    lines.extend(filled(&without_numbers(&empty), place, octets));
                }
            }
        }
        lines.push("0".repeat(octets));
        lines.push(format!("{GOOD_LINE}{}", " ".repeat(octets - GOOD_LINE.len())));
        lines.push(format!("00 OPc 00 {}", &"5A".repeat(octets)[..octets - 10]));
    }
    lines
}

/// The line with an empty field filled so that it has so many octets; not where the digits would be odd.
fn filled(line: &str, place: usize, octets: usize) -> Option<String> {
    let missing = octets - line.len();
    let digits = "5A".repeat(missing / 2);
    let fields = line.split(' ').enumerate();
    let fields = fields.map(|(field, text)| if field == place { &digits } else { text });
    missing.is_multiple_of(2).then(|| fields.collect::<Vec<&str>>().join(" "))
}

/// A good line with one field that is not of its form.
fn bad_fields() -> Vec<String> {
    let mut lines = Vec::new();
    let words =
        ["", "op", "Op", "oP", "OPC", "OpC", "opc", "OPCc", "OPc0", "OP0", "P", "O", "RAND", "00"];
    lines.extend(words.map(|word| with(&[(1, word)])));
    for (place, octets) in VALUES {
        let digits = &KEY[..2 * octets];
        let bad = ["", "-", "?", "0", "0x00", &digits[1..], &format!("{digits}0"), "OP", "OPc"];
        lines.extend(bad.map(|other| with(&[(place, other)])));
        for letter in NEAR_HEX {
            for column in [0, digits.len() / 2, digits.len() - 1] {
                let other = format!("{}{letter}{}", &digits[..column], &digits[column + 1..]);
                lines.push(with(&[(place, &other)]));
            }
        }
    }
    lines
}

/// Lines with good fields and wrong separators, or with a field too many or too few.
fn bad_lines() -> Vec<String> {
    let mut lines = Vec::new();
    let short = without_numbers(GOOD_LINE);
    for good in [GOOD_LINE, &short] {
        let fields: Vec<&str> = good.split(' ').collect();
        for separator in ["  ", "\t", " \t", "\r", ",", ", ", "-", ""] {
            lines.push(fields.join(separator));
        }
        for place in 1..fields.len() {
            let (before, after) = (fields[..place].join(" "), fields[place..].join(" "));
            lines.extend(
                ["  ", "\t", "\r", ""].map(|separator| format!("{before}{separator}{after}")),
            );
        }
        for beside in [" ", "\t", "\r", "\u{b}", "\u{c}", "\u{7f}"] {
            lines.extend([format!("{good}{beside}"), format!("{beside}{good}")]);
        }
        lines.extend([format!("{good} 00"), format!("{good} 00 00 00"), format!("{good}0")]);
        let turned: Vec<&str> = fields.iter().rev().copied().collect();
        lines.push(turned.join(" "));
    }
    let numbers: Vec<&str> = GOOD_LINE.split(' ').collect();
    for count in [0, 1, 2, 3, 5] {
        lines.push(numbers[..count].join(" "));
        lines.push(format!("{} ", numbers[..count].join(" ")));
    }
    lines.push([&numbers[..], &["OPc", &KEY[..32]]].concat().join(" "));
    lines.extend(["   ", "     ", "?", "\r", "challenge", "OP", "00 OP 00"].map(str::to_string));
    lines.push(format!("{GOOD_LINE} {GOOD_LINE}"));
    lines.push("0".repeat(10_000));
    // After all of it a good line is still answered.
    lines.push(GOOD_LINE.to_string());
    lines
}

/// Mostly a line that is answered; a length is now and then just beyond. Beside each a spoiled one.
fn random_lines() -> Vec<String> {
    let mut random = Random::seeded(61);
    let mut lines = Vec::new();
    for _ in 0..100 {
        let mut digits = |octets: usize| {
            let more = random.one_of(&[1, 1, 1, 1, 1, 1, 1, 1, 1, 1, 1, 0, 2]);
            random.digits(octets + more - 1)
        };
        let [k, value, rand, sqn, amf] = VALUES.map(|(_, octets)| digits(octets));
        let word = random.one_of(&["OP", "OPc"]);
        let line = format!("{k} {word} {value} {rand}");
        let line = if random.below(2) == 0 { line } else { format!("{line} {sqn} {amf}") };
        lines.extend([spoiled(&line, &mut random), line]);
    }
    lines
}

#[cfg(test)]
mod tests {
    use super::*;
    use crate::challenge::answer;
    use std::collections::BTreeSet;

    fn answer_to(line: &str) -> String {
        answer(line.as_bytes()).unwrap_or("?".to_string())
    }

    #[test]
    fn every_bad_field_and_bad_line_is_bad() {
        let mut bad = bad_fields();
        bad.extend(bad_lines());
        // The last is the good line that follows the bad ones.
        assert!(bad.pop().is_some_and(|line| answer_to(&line).starts_with("OPc ")));
        for line in bad {
            assert_eq!(answer_to(&line), "?", "{line:?}");
        }
    }

    #[test]
    fn every_published_set_is_answered_alike_in_all_its_lines() {
        for lines in published_vectors().chunks(8) {
            let answers: Vec<String> = lines.iter().map(|line| answer_to(line)).collect();
            for (place, answer) in answers.iter().enumerate() {
                assert_eq!(*answer, answers[place % 2]);
            }
            let codes = answers[1].strip_prefix(&answers[0]).unwrap();
            assert!(codes.starts_with(" MAC-A ") && answers[0].starts_with("OPc "));
        }
    }

    #[test]
    fn the_first_cause_of_every_set_is_named() {
        for (set, line) in causes().iter().enumerate() {
            let named = if set & 0b111 != 0 { "1" } else { "5" };
            assert_eq!(answer_to(line) == named, set != 0, "{line}");
        }
    }

    #[test]
    fn a_line_of_160_octets_is_answered_and_one_of_161_is_not() {
        let lines = longest();
        let answers = |octets: usize| -> BTreeSet<String> {
            lines.iter().filter(|line| line.len() == octets).map(|line| answer_to(line)).collect()
        };
        assert_eq!((answers(159).len(), answers(160).len()), (3, 3));
        for octets in 161..=163 {
            assert_eq!(answers(octets).into_iter().collect::<Vec<String>>(), ["?"]);
        }
    }

    #[test]
    fn every_length_but_the_right_one_is_refused() {
        let answers: Vec<String> = lengths().iter().map(|line| answer_to(line)).collect();
        let refused = |number: &str| answers.iter().filter(|answer| *answer == number).count();
        let too_long = 7 + 11;
        assert_eq!((refused("1"), refused("5")), (6 * 32, 2 * 32 - too_long));
        assert_eq!(refused("?"), too_long);
        assert_eq!(answers.iter().filter(|answer| answer.starts_with("OPc ")).count(), 8);
    }
}
