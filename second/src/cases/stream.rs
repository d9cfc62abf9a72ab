//! The test input for the program `stream`: the GEA4 vectors, sizes, every kind of
//! bad line, random lines.

use super::{ended, published, spoiled, KEY, NEAR_HEX, SIZES};
use crate::random::Random;
use crate::vectors;

const GOOD_LINE: &str = "9 000102030405060708090A0B0C0D0E0F 98000000 1";

pub fn input() -> String {
    let parts =
        [published_vectors(), sizes(), good_forms(), bad_fields(), bad_lines(), random_lines()];
    ended(parts.concat())
}

/// The calls of the GEA3 and GEA4 sets in the order of this program's fields. A key of 8 octets is
/// not of its form.
fn published_vectors() -> Vec<String> {
    let line = |call: &str| {
        let fields: Vec<&str> = call.split(' ').collect();
        let &["gea4", key, input, direction, m, _] = fields.as_slice() else {
            panic!("a set of GEA is a call of gea4");
        };
        format!("{m} {key} {} {direction}", input.trim_start_matches("0x"))
    };
    published(vectors::GEA).iter().map(|published| line(&published.call)).collect()
}

fn sizes() -> Vec<String> {
    let more = [0, 1519, 1520, 1521, 1600, 2000, 9999];
    let sizes = SIZES.into_iter().chain(more);
    sizes.map(|m| format!("{m} {KEY} 98000000 1")).collect()
}

/// Leading zeros of M, hex digits of either case, INPUT and direction at their ends.
fn good_forms() -> Vec<String> {
    let mut lines = Vec::new();
    lines.extend(
        ["00", "000", "0000", "01", "001", "0001", "0010", "0152"]
            .map(|m| format!("{m} {KEY} 98000000 1")),
    );
    lines.push(GOOD_LINE.to_lowercase());
    lines.push("16 aAbBcCdDeEfF00112233445566778899 dEadBeEf 0".to_string());
    for input in ["00000000", "00000001", "7FFFFFFF", "80000000", "ffffffff"] {
        lines.extend(["0", "1"].map(|direction| format!("16 {KEY} {input} {direction}")));
    }
    lines
}

/// A good line with one field that is not of its form.
fn bad_fields() -> Vec<String> {
    let mut lines = Vec::new();
    let ms = ["", "00009", "01520", "12345", "-1", "+9", "9.", "0x9", "A", "9a", "1e1", "/", ":"];
    lines.extend(ms.map(|m| format!("{m} {KEY} 98000000 1")));
    let keys = [
        "",
        "-",
        "0",
        &KEY[..16],
        &KEY[..30],
        &KEY[..31],
        &format!("{KEY}0"),
        &format!("{KEY}{KEY}"),
    ];
    lines.extend(keys.map(|key| format!("9 {key} 98000000 1")));
    let inputs =
        ["", "0", "9800000", "980000000", "0x980000", "0x98000000", "-8000000", "+8000000"];
    lines.extend(inputs.map(|input| format!("9 {KEY} {input} 1")));
    let directions = ["", "2", "9", "00", "01", "10", "11", "-", "a", "/", ":", "x"];
    lines.extend(directions.map(|direction| format!("9 {KEY} 98000000 {direction}")));
    for letter in NEAR_HEX {
        for place in [0, 15, 31] {
            let key = format!("{}{letter}{}", &KEY[..place], &KEY[place + 1..]);
            lines.push(format!("9 {key} 98000000 1"));
        }
        lines.push(format!("9 {KEY} {letter}8000000 1"));
        lines.push(format!("9 {KEY} 9800000{letter} 1"));
        lines.push(format!("{letter} {KEY} 98000000 1"));
        lines.push(format!("9{letter} {KEY} 98000000 1"));
    }
    lines
}

/// Lines with good fields and wrong separators, or with a field too many or too few.
fn bad_lines() -> Vec<String> {
    let mut lines = Vec::new();
    for separator in ["  ", "\t", " \t", "\t ", "\r", ",", ", ", ";", "-", "_", "/", ""] {
        let fields: Vec<&str> = GOOD_LINE.split(' ').collect();
        lines.push(fields.join(separator));
        for place in 1..fields.len() {
            let (before, after) = (fields[..place].join(" "), fields[place..].join(" "));
            lines.push([before, after].join(separator));
        }
    }
    lines.push(format!("{GOOD_LINE}0"));
    lines.push(format!("{GOOD_LINE} 0"));
    for beside in [" ", "\t", "\r", "\u{b}", "\u{c}", "\u{7f}"] {
        lines.push(format!("{GOOD_LINE}{beside}"));
        lines.push(format!("{beside}{GOOD_LINE}"));
    }
    lines.extend((0..GOOD_LINE.len()).map(|length| GOOD_LINE[..length].to_string()));
    lines.extend(["   ", "?", "\r", "9", "9 ", "stream"].map(str::to_string));
    lines.push(format!("{GOOD_LINE} {GOOD_LINE}"));
    lines.push("0".repeat(10_000));
    // After all of it a good line is still answered.
    lines.push(GOOD_LINE.to_string());
    lines
}

fn random_lines() -> Vec<String> {
    let mut random = Random::seeded(5);
    let mut lines: Vec<String> = (0..200)
        .map(|_| {
            let (m, direction) = (1 + random.below(120), random.below(2));
            format!("{m} {} {} {direction}", random.digits(16), random.digits(4))
        })
        .collect();
    let spoiled: Vec<String> = lines.iter().map(|line| spoiled(line, &mut random)).collect();
    lines.extend(spoiled);
    lines
}

#[cfg(test)]
mod tests {
    use crate::{lines, stream};

    #[test]
    fn every_bad_field_and_bad_line_is_bad() {
        let mut bad = super::bad_fields();
        bad.extend(super::bad_lines());
        // The last is the good line that follows the bad ones.
        assert!(bad.pop().is_some_and(|line| stream::answer(line.as_bytes()).is_some()));
        for line in bad {
            assert_eq!(stream::answer(line.as_bytes()), None, "{line:?}");
        }
    }

    #[test]
    fn every_good_form_is_good() {
        let output = lines::answers(super::ended(super::good_forms()).as_bytes(), stream::answer);
        assert!(!output.contains('?'));
    }
}
