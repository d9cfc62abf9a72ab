//! Lines of any form, good and bad, made from the forms themselves; and lines that are no call.

use super::ends::STATES;
use crate::cases::{spoiled, KEY, NEAR_HEX};
use crate::random::Random;

/// Fields between spaces, the first of them empty, that are no numbers: signs, other digits,
/// prefixes of another form, a digit too many.
const NO_NUMBERS: &str = " - -1 +1 1x x1 0x 0X1 00x1 0x0x1 1,0 1.0 1_0 A 0xG 0x-1 12345678901 \
    00000000001 0x00000000000000001 0x10000000000000000 18446744073709551616";

/// Lines between bars that are no call: nothing, names alone, other names.
const NO_CALLS: &str = "| |  |\r|\t|?|-|0|call|stream|walk|walk 5|gea3|look_refusal 00050131001A55\
    |kasumi|cut|start |start  | start|start 0|start -|start\r|START|starts|star|look|look |look  \
    |decimal 3132|silence|walks_start|bench_start|f8|f9|f8 |check_code|check|f\
    |aes|expand_key|encrypt_block|milenage|challenge|opc|op|f0|f1|f1*|f2|f3|f4|f5|f5*|f6|f2_star\
    |reserve|store|restore|store_sender|store_receiver|restore_sender|restore_receiver|store_link\
    |can_arise|sender_can_arise|receiver_can_arise|cut_sender|stored|restore_sender  -|reserved";

/// The stored form of a sender that stands at 9, and of a receiver that has accepted 0 alone.
const SENDER_FORM: &str = "001B01000102030405060708090A0B0C0D0E0F12345678030100000009";
const RECEIVER_FORM: &str = "001F01000102030405060708090A0B0C0D0E0F1234567803010000000100000001";

/// A form taken apart: the name, and the type of each field.
struct Form {
    name: &'static str,
    types: Vec<Type>,
}

enum Type {
    /// Octets, and some that do.
    Octets(&'static str),
    /// So many octets and no others: the key of a state, what the rounds are lent, a block of AES.
    Exactly(usize),
    /// A number, of octets or another, with one that does and the largest.
    Number { good: u64, largest: u64 },
}

impl Form {
    fn of(form: &'static str) -> Form {
        let (line, _) = form.split_once(" -> ").unwrap_or((form, ""));
        let mut words = line.split(' ');
        let name = words.next().expect("a form has a name");
        let state = |word| STATES.iter().find(|(state, _)| *state == word);
        let fields = words.flat_map(|word| state(word).map_or(word, |state| state.1).split(' '));
        Form { name, types: fields.map(Type::of).collect() }
    }

    fn line(&self, fields: &[String]) -> String {
        [&[self.name.to_string()], fields].concat().join(" ")
    }

    fn good_fields(&self) -> Vec<String> {
        self.types.iter().map(Type::good).collect()
    }

    /// The good line with another field in one place, for each place and each of its fields.
    fn with(&self, others: fn(&Type) -> Vec<String>) -> Vec<String> {
        let mut lines = Vec::new();
        for (place, kind) in self.types.iter().enumerate() {
            for other in others(kind) {
                let mut fields = self.good_fields();
                fields[place] = other;
                lines.push(self.line(&fields));
            }
        }
        lines
    }
}

impl Type {
    fn of(field: &str) -> Type {
        match field.split_once(':') {
            None if ["KEY", "OP", "OPC", "RAND", "BLOCK"].contains(&field) => Type::Octets(KEY),
            None if field == "SQN" => Type::Octets("ff9BB4D0b607"),
            None if field == "FRAME" => Type::Octets("00050111000155"),
            None if field == "SENDER_FORM" => Type::Octets(SENDER_FORM),
            None if field == "RECEIVER_FORM" => Type::Octets(RECEIVER_FORM),
            None => Type::Octets("c0DE"),
            Some((_, "key" | "block")) => Type::Exactly(16),
            Some((_, "words")) => Type::Exactly(176),
            Some((_, "table")) => Type::Exactly(1_280),
            Some((_, "keys")) => Type::Exactly(128),
            Some((_, "size")) => Type::Number { good: 64, largest: 65_600 },
            // Above the next number, which is 1 in a good line.
            Some(("RESERVED" | "RESERVATION", _)) => {
                Type::Number { good: 9, largest: u32::MAX.into() }
            }
            Some((_, "u8")) => Type::Number { good: 1, largest: u8::MAX.into() },
            Some((_, "u16")) => Type::Number { good: 1, largest: u16::MAX.into() },
            Some((_, "u32")) => Type::Number { good: 1, largest: u32::MAX.into() },
            Some((_, "u64")) => Type::Number { good: 1, largest: u64::MAX },
            Some((_, other)) => panic!("{other} is no type of a field"),
        }
    }

    /// A field with which a call succeeds.
    fn good(&self) -> String {
        match self {
            Type::Octets(octets) => octets.to_string(),
            Type::Exactly(count) => KEY.repeat(count / 16),
            Type::Number { good, .. } => good.to_string(),
        }
    }

    /// The same field in other forms.
    fn same_forms(&self) -> Vec<String> {
        match self {
            Type::Octets(octets) => vec![octets.to_lowercase(), octets.to_uppercase()],
            Type::Exactly(_) => vec![self.good().to_lowercase()],
            Type::Number { good, .. } => {
                let decimal = [format!("{good:04}"), format!("{good:010}")];
                let hex = [format!("0x{good:x}"), format!("0x0{good:x}"), format!("0x{good:016x}")];
                decimal.into_iter().chain(hex).collect()
            }
        }
    }

    /// None, one and the most octets; the least and the largest number.
    fn ends(&self) -> Vec<String> {
        match self {
            Type::Octets(_) => vec!["-".to_string(), "00".to_string(), "5a".repeat(2_560)],
            Type::Exactly(count) => vec!["00".repeat(*count), "fF".repeat(*count)],
            Type::Number { largest, .. } => vec!["0".to_string(), format!("0x{largest:x}")],
        }
    }

    /// What is no number, and one above the largest; what is no octets; octets of another number.
    fn bad_forms(&self) -> Vec<String> {
        match self {
            Type::Octets(_) => no_octets(),
            Type::Exactly(count) => {
                let lengths = [1, 8, count - 1, count + 1, 2_560].map(|octets| "5A".repeat(octets));
                [no_octets(), vec!["-".to_string()], lengths.to_vec()].concat()
            }
            Type::Number { largest, .. } => {
                let mut forms: Vec<String> = NO_NUMBERS.split(' ').map(str::to_string).collect();
                forms.extend(largest.checked_add(1).map(|above| above.to_string()));
                forms.extend(largest.checked_add(1).map(|above| format!("0x{above:X}")));
                forms
            }
        }
    }
}

/// Fields that are no octets: half a pair, a letter beside hex, a sign, too many.
fn no_octets() -> Vec<String> {
    let too_many = "00".repeat(2_561);
    let bad = ["", "0", "--", "-0", "0-", "0x00", too_many.as_str(), &KEY[1..]];
    let beside = NEAR_HEX.map(|letter| KEY.replace('C', &letter.to_string()));
    bad.map(str::to_string).into_iter().chain(beside).collect()
}

/// The lines that forms make: good ones in every form, bad ones of each kind, nearly good ones.
pub fn lines(forms: &[&'static str]) -> Vec<String> {
    let mut random = Random::seeded(9);
    let mut lines = Vec::new();
    for form in forms.iter().map(|form| Form::of(form)) {
        let good = form.line(&form.good_fields());
        lines.push(good.clone());
        lines.extend(form.with(Type::same_forms));
        lines.extend(form.with(Type::ends));
        lines.extend(form.with(Type::bad_forms));
        lines.extend(bad_places(&good));
        lines.extend((0..24).map(|_| spoiled(&good, &mut random)));
    }
    lines
}

/// The fields of a good line in bad places; where there are none some places are good.
fn bad_places(line: &str) -> Vec<String> {
    let but_last = line.rsplit_once(' ').map_or("", |(but_last, _)| but_last);
    let mut lines = vec![
        but_last.to_string(),
        format!("{but_last} "),
        format!("{line} 0"),
        format!(" {line}"),
        format!("{line} "),
        format!("{line}\r"),
        format!("{line}\t"),
        format!("{line}{}", " ".repeat(8_192)),
        line.replacen(' ', "  ", 1),
        line.replacen(' ', "\t", 1),
        line.replace(' ', "\t"),
        line.replace(' ', ","),
        line.replace(' ', ""),
        line.to_uppercase(),
        line[1..].to_string(),
        format!("x{line}"),
    ];
    lines.retain(|other| other != line);
    lines
}

pub fn no_calls() -> Vec<String> {
    let mut lines: Vec<String> = NO_CALLS.split('|').map(str::to_string).collect();
    lines.extend([8_192, 8_193].map(|octets| "0".repeat(octets)));
    lines
}

#[cfg(test)]
mod tests {
    use super::*;
    use crate::call::{answer, SUBJECTS};

    #[test]
    fn every_good_line_succeeds_and_every_bad_one_has_no_answer() {
        for text in SUBJECTS.iter().flat_map(|subject| subject.forms) {
            let form = Form::of(text);
            let good = form.line(&form.good_fields());
            let answered = answer(good.as_bytes());
            let refusal = answered.as_ref().and_then(|answer| answer.split(' ').next());
            assert!(refusal == Some("0") || !text.contains(" -> "), "{good:?}");
            for line in form.with(Type::same_forms) {
                assert_eq!(answer(line.as_bytes()), answered, "{line:?}");
            }
            for line in form.with(Type::ends) {
                assert!(answer(line.as_bytes()).is_some(), "{line:?}");
            }
            for line in bad_places(&good).into_iter().chain(form.with(Type::bad_forms)) {
                assert_eq!(answer(line.as_bytes()), None, "{line:?}");
            }
        }
        for line in no_calls() {
            assert_eq!(answer(line.as_bytes()), None, "{line:?}");
        }
    }

    #[test]
    fn a_form_says_how_its_fields_are_spoiled() {
        let lines = |form| lines(&[form]);
        assert!(lines("cut OCTETS START:u32 -> 0 4").contains(&"cut c0DE 4294967296".to_string()));
        assert!(lines("first_bits OCTET:u8 COUNT:u32").contains(&"first_bits 256 1".to_string()));
        assert!(lines("seal KEY:key").contains(&format!("seal {}", "5A".repeat(15))));
    }
}
