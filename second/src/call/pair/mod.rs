//! The lines of f8 and f9, and their answers.

mod cases;
mod causes;
mod given;
mod groups;

use super::form::{handed_out, lent, number, octets_field};
use super::Subject;
use crate::product::pair::{self, F8Inputs, F9Inputs};

pub const SUBJECT: Subject = Subject {
    forms: &[
        "f8 KEY COUNT:u32 BEARER:u8 DIRECTION:u8 MESSAGE BITS:u32 ROOM:size -> 0 1 2 3 4 5",
        "f9 KEY COUNT:u32 FRESH:u32 DIRECTION:u8 MESSAGE BITS:u32 -> 0 1 2 3 5",
        "check_code KEY COUNT:u32 FRESH:u32 DIRECTION:u8 MESSAGE BITS:u32 CODE:u32 -> 0 1 2 3 5",
    ],
    answer,
    cases: cases::lines,
};

/// `f8` answers REFUSAL OUTPUT, `f9` REFUSAL CODE, `check_code` REFUSAL RIGHT.
fn answer(fields: &[&[u8]]) -> Option<String> {
    match *fields {
        [b"f8", key, count, bearer, direction, message, bits, room] => {
            let (count, bearer, direction) = (number(count)?, number(bearer)?, number(direction)?);
            let inputs = F8Inputs { count, bearer, direction };
            let (key, message) = (octets_field(key)?, octets_field(message)?);
            let mut output = lent(room)?;
            let refusal = pair::f8(inputs, &key, &message, number(bits)?, &mut output);
            Some(handed_out(refusal, &[output]))
        }
        [b"f9", key, count, fresh, direction, message, bits] => {
            let (key, message) = (octets_field(key)?, octets_field(message)?);
            let inputs = f9_inputs(count, fresh, direction)?;
            let (refusal, code) = pair::f9(inputs, &key, &message, number(bits)?);
            Some(format!("{refusal} {code:08X}"))
        }
        [b"check_code", key, count, fresh, direction, message, bits, code] => {
            let (key, message) = (octets_field(key)?, octets_field(message)?);
            let inputs = f9_inputs(count, fresh, direction)?;
            let (bits, code) = (number(bits)?, number(code)?);
            let (refusal, right) = pair::check_code(inputs, &key, &message, bits, code);
            Some(format!("{refusal} {}", u8::from(right)))
        }
        _ => None,
    }
}

fn f9_inputs(count: &[u8], fresh: &[u8], direction: &[u8]) -> Option<F9Inputs> {
    let (count, fresh, direction) = (number(count)?, number(fresh)?, number(direction)?);
    Some(F9Inputs { count, fresh, direction })
}

#[cfg(test)]
mod tests {
    use crate::call;
    use crate::cases::KEY;

    pub fn answer_to(line: &str) -> String {
        call::answer(line.as_bytes()).unwrap_or("?".to_string())
    }

    #[test]
    fn every_octet_of_a_lent_buffer_is_shown_and_a_refused_code_is_zero() {
        assert_eq!(answer_to("f8 - 0 0 0 FF 1 3"), "1 AAAAAA");
        assert_eq!(answer_to("f9 - 0 0 0 FF 1"), "1 00000000");
        assert_eq!(answer_to("check_code - 0 0 0 FF 1 0"), "1 0");
        let ciphered = answer_to(&format!("f8 {KEY} 0 0 0 FF 1 3"));
        assert!(["0 00AAAA", "0 80AAAA"].contains(&ciphered.as_str()), "{ciphered}");
    }

    #[test]
    fn a_line_that_is_not_of_the_form_has_no_answer() {
        let good = format!("f8 {KEY} 4294967295 31 1 C0DE 16 2");
        assert!(answer_to(&good).starts_with("0 "));
        let spoiled = [("4294967295", "4294967296"), ("4294967295", "0x100000000")];
        let spoiled = spoiled.iter().chain(&[(" 31 ", " 256 "), ("C0DE", "C0D"), (" C0DE", "")]);
        for (field, other) in spoiled.chain(&[(" 16 2", " 16 2 0"), (" 16 2", " 16 65601")]) {
            assert_eq!(answer_to(&good.replace(field, other)), "?", "{other}");
        }
        let good = format!("check_code {KEY} 0 0 1 C0DE 16 4294967295");
        assert_eq!(answer_to(&good), "0 0");
        for bad in [good.replace("4294967295", "4294967296"), good.replace(" 4294967295", "")] {
            assert_eq!(answer_to(&bad), "?", "{bad}");
        }
    }
}
