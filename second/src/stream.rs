//! The program `stream`: a line is M, key, INPUT and direction, its answer the GEA4 octets.
//! Follows document 01, "Examples to hold on to", the paragraph after the table of `walk`.

use crate::lines;
use crate::product::ciphers;

const LARGEST_M: u32 = 1_520;

/// The answer to a line, or nothing for a line that is not of the form.
pub fn answer(line: &[u8]) -> Option<String> {
    let fields = lines::fields(line);
    let &[m, key, input, direction] = fields.as_slice() else {
        return None;
    };
    let form = (1..=4).contains(&m.len()) && key.len() == 32 && input.len() == 8;
    if !form || direction.len() != 1 {
        return None;
    }
    let m = lines::based(m, 10).filter(|&m| m <= LARGEST_M)?;
    let key = lines::octets(key)?;
    let input = lines::based(input, 16)?;
    let direction = lines::based(direction, 2)?;

    let mut output = vec![0; m as usize];
    Some(match ciphers::gea4(&key, input, direction, m, &mut output) {
        0 => lines::hex(&output),
        refusal => refusal.to_string(),
    })
}

#[cfg(test)]
mod tests {
    use super::*;

    const REST: &str = " d3c5d592327fb11c4035C6680AF8C6D1 0A3A59B4 0";

    #[test]
    fn m_has_one_to_four_digits_up_to_1520() {
        let answer_to = |m: &str| answer(format!("{m}{REST}").as_bytes());
        assert_eq!(answer_to("0003"), Some("6E217C".to_string()));
        assert_eq!(answer_to("0"), Some("3".to_string()));
        assert_eq!(answer_to("1520").map(|text| text.len()), Some(3040));
        for bad in ["1521", "9999", "00003", "", "3x", "0x3"] {
            assert_eq!(answer_to(bad), None);
        }
    }

    #[test]
    fn a_carriage_return_is_no_digit() {
        assert_eq!(answer(format!("3{REST}\r").as_bytes()), None);
    }
}
