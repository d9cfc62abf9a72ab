//! Inputs with lines of a megabyte, too large to be kept as files: an over-long line,
//! good lines, then random octets that no line end closes.

use super::KEY;
use crate::link::numbering::LAST_NUMBER;
use crate::random::Random;

const MEGABYTE: usize = 1_048_576;

pub fn stream() -> Vec<u8> {
    around(&format!("9 {KEY} 98000000 1"))
}

pub fn call() -> Vec<u8> {
    around(&format!("gea4 {KEY} 0x98000000 1 9 10"))
}

/// The good lines lead over the longest gaps to the last number and try what lies behind it.
pub fn walk() -> Vec<u8> {
    let longest_gaps = (1..).map(|step| 480 * step - 1).take_while(|&number| number < LAST_NUMBER);
    let full = LAST_NUMBER + 1;
    let mut numbers: Vec<i64> = longest_gaps.collect();
    numbers.extend([LAST_NUMBER - 1, full + 3, LAST_NUMBER, LAST_NUMBER]);
    numbers.extend((0..512).map(|offset| full + 479 - offset));
    numbers.extend((0..512).map(|offset| full + 479 - offset));
    let lines: Vec<String> = numbers.iter().map(|number| (number % 512).to_string()).collect();
    around(&lines.join("\n"))
}

pub fn demo() -> Vec<u8> {
    around("pass one line between two that are too long")
}

pub fn challenge() -> Vec<u8> {
    around(&format!("{KEY} OP {KEY} {KEY} 303132333435 4041"))
}

fn around(good_lines: &str) -> Vec<u8> {
    let mut random = Random::seeded(3);
    let mut input = vec![b'0'; MEGABYTE];
    input.extend(format!("\n{good_lines}\n").as_bytes());
    // No octet is a line end, so that all of it is one line.
    input.extend((0..MEGABYTE).map(|_| match random.octet() {
        b'\n' => 0,
        octet => octet,
    }));
    input
}

#[cfg(test)]
mod tests {
    use crate::{call, challenge, demo, lines, stream, walk};

    #[test]
    fn the_good_line_between_two_huge_ones_is_answered() {
        let output = lines::answers(&super::stream(), stream::answer);
        let octets = output.strip_prefix("?\n").and_then(|rest| rest.strip_suffix("\n?\n"));
        let octets = octets.expect("both huge lines are bad");
        assert_eq!(octets.len(), 18);
        assert_eq!(lines::answers(&super::call(), call::answer), format!("?\n0 {octets}AA\n?\n"));
    }

    #[test]
    fn the_challenge_between_two_huge_lines_is_answered() {
        let output = lines::answers(&super::challenge(), challenge::answer);
        let lines: Vec<&str> = output.lines().collect();
        assert_eq!((lines.len(), lines[0], lines[2]), (3, "?", "?"));
        assert!(lines[1].starts_with("OPc ") && lines[1].contains(" MAC-S "));
    }

    #[test]
    fn the_frame_between_two_huge_lines_arrives() {
        let output = String::from_utf8(demo::output(&super::demo())).expect("ASCII");
        let lines: Vec<&str> = output.lines().collect();
        assert_eq!(lines.len(), 4);
        assert!(lines[1].starts_with("?          0          long "));
        assert!(lines[2].starts_with("0          64         passed "));
        assert!(lines[3].starts_with("?          64         long "));
    }

    #[test]
    fn the_walk_reaches_the_last_number() {
        let output = walk::output(&super::walk());
        let lines: Vec<&str> = output.lines().collect();
        assert_eq!(lines[1], "? - 2 0");
        assert!(lines.contains(&"511 134217727 ok 134217728"));
        assert!(lines.contains(&"511 134217727 11 134217728"));
        assert!(lines.contains(&"0 - 10 134217728"));
        assert!(lines.contains(&"480 134217696 ok 134217728"));
        assert!(lines.contains(&"479 - 10 134217728"));
        assert_eq!(lines.last(), Some(&"? - 2 134217728"));
    }
}
