//! Lines of standard input, their answers, and the parts that lines are made of.
//! Follows document 01, "Examples to hold on to": a last line needs no line end,
//! and empty input prints nothing.

use std::fmt::Write;

/// The answers to all lines of the input; a line without an answer is not of its form.
pub fn answers(input: &[u8], answer: fn(&[u8]) -> Option<String>) -> String {
    let mut text = String::new();
    for line in lines(input) {
        text.push_str(answer(line).as_deref().unwrap_or("?"));
        text.push('\n');
    }
    text
}

/// The lines without their line ends.
pub fn lines(input: &[u8]) -> Vec<&[u8]> {
    let mut lines: Vec<&[u8]> = input.split(|&octet| octet == b'\n').collect();
    // What stands behind the last line end is a line only when it has an octet.
    if lines.last().is_some_and(|line| line.is_empty()) {
        lines.pop();
    }
    lines
}

/// The fields between single spaces; two spaces make an empty field, which has no form.
pub fn fields(line: &[u8]) -> Vec<&[u8]> {
    line.split(|&octet| octet == b' ').collect()
}

/// The octets of pairs of hex digits of either case.
pub fn octets(digits: &[u8]) -> Option<Vec<u8>> {
    let pairs = digits.chunks(2);
    pairs.map(|pair| if pair.len() == 2 { based(pair, 16) } else { None }).collect()
}

/// The number that digits of a base write; its type bounds it.
pub fn based<Number: TryFrom<u64>>(digits: &[u8], base: u32) -> Option<Number> {
    if digits.is_empty() {
        return None;
    }
    let number = digits.iter().try_fold(0u64, |number, &octet| {
        let digit = char::from(octet).to_digit(base)?;
        number.checked_mul(base.into())?.checked_add(digit.into())
    })?;
    number.try_into().ok()
}

/// Octets as capital hex digits.
pub fn hex(octets: &[u8]) -> String {
    octets.iter().fold(String::new(), |mut text, octet| {
        write!(text, "{octet:02X}").expect("a string takes every text");
        text
    })
}

#[cfg(test)]
mod tests {
    use super::*;

    #[test]
    fn a_last_line_needs_no_line_end() {
        assert!(lines(b"").is_empty());
        assert_eq!(lines(b"\n"), [b""]);
        assert_eq!(lines(b"a\n\nb"), [b"a" as &[u8], b"", b"b"]);
        assert_eq!(lines(b"a\n\nb\n"), [b"a" as &[u8], b"", b"b"]);
    }

    #[test]
    fn digits_are_ascii_and_nothing_else() {
        assert_eq!(based(b"00000255", 10), Some(255u8));
        assert_eq!(based::<u8>(b"256", 10), None);
        assert_eq!(based(b"FFFFFFFFFFFFFFFF", 16), Some(u64::MAX));
        for bad in [b"" as &[u8], b"+1", b"-1", b"1 ", b"\xB2", b"g", b"@", b"`", b"/", b":"] {
            assert_eq!(based::<u64>(bad, 16), None);
        }
    }

    #[test]
    fn octets_are_pairs() {
        assert_eq!(octets(b""), Some(vec![]));
        assert_eq!(octets(b"aBf0"), Some(vec![0xAB, 0xF0]));
        assert_eq!(octets(b"abc"), None);
        assert_eq!(hex(&[0xAB, 0x01]), "AB01");
    }
}
