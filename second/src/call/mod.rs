//! The program `call`: a line is one of the product's calls, its answer the refusal number and
//! everything that was handed out. Each subject of the product has a file here with the forms of
//! its lines, their answers, and lines to try them with.
//!
//! One space stands between fields. Octets are pairs of hex digits, at most 2,560, or `-` for
//! none. All else are numbers within the type of their parameter: decimal, or hex after `0x`. A
//! room is the size of a lent output, at most 65,600. A line has at most 8,192 octets. The answer
//! is the refusal number, where the call can be refused, and then what it hands out: octets, every
//! octet of each lent output, a block and a code in capital hex, numbers in decimal, yes as 1 and no
//! as 0.

mod aes;
mod bits;
mod ciphers;
mod ends;
pub mod form;
mod forms;
mod headers;
mod links;
mod milenage;
mod numbers;
mod pair;
mod rounds;
mod stored;

use crate::cases::ended;
use crate::lines::fields;

const LONGEST_LINE: usize = 8192;

/// The calls of one subject.
struct Subject {
    /// The name of each, its fields, and the refusals that it can answer, as in
    /// `cut OCTETS START:u32 LENGTH:u32 ROOM:size -> 0 4`. A field without a type is octets, one
    /// of the type `key` the 16 octets of a state's key, one of the types `table` and `keys` the words
    /// that the rounds of KASUMI are lent, one of the types `words` and `block` the words and the block of
    /// AES.
    forms: &'static [&'static str],
    /// The answer to the fields of a line, or nothing for a line that is not of a form.
    answer: fn(&[&[u8]]) -> Option<String>,
    /// Lines to try the calls with, beside those that `forms` makes of any form.
    cases: fn() -> Vec<String>,
}

const SUBJECTS: [Subject; 11] = [
    ciphers::SUBJECT,
    rounds::SUBJECT,
    pair::SUBJECT,
    aes::SUBJECT,
    milenage::SUBJECT,
    bits::SUBJECT,
    numbers::SUBJECT,
    headers::SUBJECT,
    links::SUBJECT,
    ends::SUBJECT,
    stored::SUBJECT,
];

/// The answer to a line, or nothing for a line that is not of the form.
pub fn answer(line: &[u8]) -> Option<String> {
    if line.len() > LONGEST_LINE {
        return None;
    }
    let fields = fields(line);
    SUBJECTS.iter().find_map(|subject| (subject.answer)(&fields))
}

/// The test input.
pub fn input() -> String {
    ended(lines())
}

/// A second one: every V from 0 to 600 against every N.
pub fn sweep() -> String {
    ended(numbers::sweep())
}

fn lines() -> Vec<String> {
    let parts = SUBJECTS.iter().map(|subject| [(subject.cases)(), forms::lines(subject.forms)]);
    parts.flatten().flatten().chain(forms::no_calls()).collect()
}

#[cfg(test)]
mod tests {
    use super::form::octets_field;
    use super::*;
    use std::collections::BTreeSet;

    fn answer_to(line: &str) -> String {
        answer(line.as_bytes()).unwrap_or("?".to_string())
    }

    #[test]
    fn every_refusal_of_every_call_is_met_and_no_other() {
        let lines = lines();
        for form in SUBJECTS.iter().flat_map(|subject| subject.forms) {
            let (name, refusals) = (form.split(' ').next(), form.split_once(" -> "));
            let own = lines.iter().filter(|line| line.split(' ').next() == name);
            let answers: BTreeSet<String> = own
                .map(|line| answer_to(line).split(' ').next().unwrap_or_default().to_string())
                .collect();
            assert!(answers.contains("?"), "{form}");
            if let Some((_, refusals)) = refusals {
                let met = answers.iter().map(String::as_str).filter(|&answer| answer != "?");
                assert_eq!(met.collect::<BTreeSet<_>>(), refusals.split(' ').collect(), "{form}");
            }
        }
    }

    #[test]
    fn keys_of_0_to_33_octets_go_through_every_call_that_takes_one_and_8_and_16_pass() {
        let lines = lines();
        let takes_a_key = |form: &&&str| form.split(' ').nth(1) == Some("KEY");
        let forms: Vec<_> = SUBJECTS.iter().flat_map(|subject| subject.forms).collect();
        let forms: Vec<_> = forms.iter().filter(|form| takes_a_key(form)).collect();
        assert_eq!(forms.len(), 23);
        for form in forms {
            let name = form.split(' ').next().unwrap();
            let either = ["prepare_key", "gsm", "ecsd", "gea4"];
            let either = either.contains(&name) || name.starts_with("open_");
            let lengths: &[usize] = if either { &[8, 16] } else { &[16] };
            // Of MILENAGE 1 is for these too.
            let strings = |word: &str| ["OP", "OPC", "RAND"].contains(&word);
            let strings = form.split(' ').enumerate().filter(|(_, word)| strings(word));
            let strings: Vec<usize> = strings.map(|(place, _)| place).collect();
            let mut tried = BTreeSet::new();
            for line in lines.iter().filter(|line| line.split(' ').next() == Some(name)) {
                let Some(answer) = answer(line.as_bytes()) else { continue };
                let field = |place| line.split(' ').nth(place).unwrap();
                let octets = |place| octets_field(field(place).as_bytes()).unwrap().len();
                let refused = answer.split(' ').next() == Some("1");
                let right = strings.iter().all(|&place| octets(place) == 16);
                assert_eq!(refused, !(right && lengths.contains(&octets(1))), "{line}");
                tried.insert(octets(1));
            }
            assert!(tried.is_superset(&(0..=33).collect()), "{form}");
        }
    }

    #[test]
    fn at_most_2560_octets_and_at_most_8192_in_a_line() {
        let key = |octets| format!("kasumi {} 0", "00".repeat(octets));
        assert_eq!(answer_to(&key(2560)), "1 0000000000000000");
        assert_eq!(answer_to(&key(2561)), "?");
        assert_eq!(answer_to(&" ".repeat(8193)), "?");
    }
}
