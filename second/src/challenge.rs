//! The program `challenge`: a line is K, the word OP or OPc with its value, RAND and, where wanted, SQN
//! and AMF; its answer is OPc and all that the challenge gives.
//! Follows document 02, item 7.

use crate::bits::{of_octets, to_octets, Bits};
use crate::lines::{fields, hex, octets};
use crate::milenage::{opc, Challenge};
use crate::refusals::{bad_key, first, KEY, LENGTH, NONE};

const LONGEST_LINE: usize = 160;

/// The answer to a line, or nothing for a line that is not of the form.
pub fn answer(line: &[u8]) -> Option<String> {
    if line.len() > LONGEST_LINE {
        return None;
    }
    let (word, values) = match *fields(line) {
        [k, word, value, rand] => (word, vec![k, value, rand]),
        [k, word, value, rand, sqn, amf] => (word, vec![k, value, rand, sqn, amf]),
        _ => return None,
    };
    let of_op = [&b"OPc"[..], b"OP"].iter().position(|&other| other == word)? == 1;
    let values: Vec<Vec<u8>> = values.into_iter().map(some_octets).collect::<Option<_>>()?;
    let (strings, numbers) = values.split_at(3);

    let refusal = first(&[
        (KEY, strings.iter().any(|string| bad_key(string))),
        (LENGTH, numbers.iter().zip([6, 2]).any(|(number, octets)| number.len() != octets)),
    ]);
    if refusal != NONE {
        return Some(refusal.to_string());
    }
    Some(told(values.iter().map(|value| of_octets(value)).collect(), of_op))
}

/// Pairs of hex digits, at least one.
fn some_octets(digits: &[u8]) -> Option<Vec<u8>> {
    octets(digits).filter(|octets| !octets.is_empty())
}

/// What all values of right lengths give, each after its name.
fn told(mut values: Vec<Bits>, of_op: bool) -> String {
    let numbers = values.split_off(3);
    let [k, value, rand] = values.try_into().expect("there are three strings");
    let opc = if of_op { opc(&k, &value) } else { value };
    let challenge = Challenge { k, opc, rand };
    let mut parts = vec![
        ("OPc", challenge.opc.clone()),
        ("RES", challenge.f2()),
        ("CK", challenge.f3()),
        ("IK", challenge.f4()),
        ("AK", challenge.f5()),
    ];
    if let [sqn, amf] = &numbers[..] {
        parts.push(("MAC-A", challenge.f1(sqn, amf)));
        parts.push(("MAC-S", challenge.f1_star(sqn, amf)));
    }
    let shown = |(name, bits): (&str, Bits)| format!("{name} {}", hex(&to_octets(&bits)));
    parts.into_iter().map(shown).collect::<Vec<String>>().join(" ")
}

#[cfg(test)]
mod tests {
    use super::*;

    const K: &str = "465B5CE8B199B49FAA5F0A2EE238A6BC";
    const OP: &str = "CDC202D5123E20F62B6D676AC72CB318";
    const OPC: &str = "CD63CB71954A9F4E48A5994E37A02BAF";
    const RAND: &str = "23553CBE9637A89D218AE64DAE47BF35";

    fn answer_to(line: &str) -> String {
        answer(line.as_bytes()).unwrap_or("?".to_string())
    }

    #[test]
    fn test_set_1_of_ts_35_208_with_op_and_with_opc_with_and_without_sqn_and_amf() {
        let keys = "OPc CD63CB71954A9F4E48A5994E37A02BAF RES A54211D5E3BA50BF \
            CK B40BA9A3C58B2A05BBF0D987B21BF8CB IK F769BCD751044604127672711C6D3441 AK AA689C648370";
        let codes = "MAC-A 4A9FFAC354DFAFB3 MAC-S 01CFAF9EC4E871E9";
        for value in [format!("OP {OP}"), format!("OPc {OPC}")] {
            assert_eq!(answer_to(&format!("{K} {value} {RAND}")), keys);
            let numbered = format!("{K} {value} {RAND} ff9bb4d0b607 B9b9");
            assert_eq!(answer_to(&numbered), format!("{keys} {codes}"));
        }
    }

    #[test]
    fn a_wrong_length_is_answered_by_its_number_and_1_comes_before_5() {
        let good = format!("{K} OP {OP} {RAND} 303132333435 4041");
        for string in [K, OP, RAND] {
            for other in [&string[2..], &format!("{string}00"), "00"] {
                let line = good.replace(string, other);
                assert_eq!(answer_to(&line), "1");
                assert_eq!(answer_to(&line.replace("4041", "40")), "1");
            }
        }
        for (number, other) in [("303132333435", "3031323334"), ("4041", "40"), ("4041", "404142")]
        {
            assert_eq!(answer_to(&good.replace(number, other)), "5");
        }
    }

    #[test]
    fn a_line_of_another_form_has_no_answer() {
        let good = format!("{K} OPc {OPC} {RAND}");
        let word = |other: &str| good.replace("OPc", other);
        for bad in [word("OPC"), word("opc"), word("Op"), word("OP "), word(""), word("RAND")] {
            assert_eq!(answer_to(&bad), "?", "{bad}");
        }
        let beside = ["", " ", "\r", " 3031", " -", "0", " 30 31 ", " 30 31 32", " 30  31"];
        for (place, after) in beside.into_iter().enumerate() {
            assert_eq!(answer_to(&format!("{good}{after}")) == "?", place != 0, "{after:?}");
        }
        assert_eq!(answer_to(&good[2..]), "1");
        assert_eq!(answer_to(&good[1..]), "?");
        assert_eq!(answer_to(""), "?");
    }

    #[test]
    fn a_line_has_at_most_160_octets() {
        let line = |octets: usize| format!("{} OPc {OPC} {RAND}", "5A".repeat(octets));
        assert_eq!((line(45).len(), answer_to(&line(45)).as_str()), (160, "1"));
        assert_eq!(answer_to(&line(45).replace("OPc", "OP")), "1");
        assert_eq!(answer_to(&line(46).replace("OPc", "OP")), "?");
        assert_eq!(answer_to(&line(46)), "?");
    }
}
