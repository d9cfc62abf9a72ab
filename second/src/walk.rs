//! The program `walk`: a receiver's numbering from V = 0, a line of input the N of a frame.
//! Follows document 01, "Examples to hold on to", the two paragraphs around its table.

use crate::lines::{based, lines};
use crate::link::numbering::{History, LAST_N};
use crate::refusals::{NONE, REPEAT};

const HEADER: &str = "N number answer next\n";

pub fn output(input: &[u8]) -> String {
    let mut history = History::new();
    let steps = lines(input).into_iter().map(|line| step(&mut history, line));
    [HEADER.to_string()].into_iter().chain(steps).collect()
}

fn step(history: &mut History, line: &[u8]) -> String {
    let Some(n) = read_n(line) else {
        return format!("? - 2 {}\n", history.next());
    };
    let candidate = history.candidate(n.into());
    match history.refusal(candidate) {
        NONE => {
            history.accept(candidate);
            format!("{n} {candidate} ok {}\n", history.next())
        }
        REPEAT => format!("{n} {candidate} {REPEAT} {}\n", history.next()),
        refusal => format!("{n} - {refusal} {}\n", history.next()),
    }
}

/// One to three digits with a value up to 511.
pub fn read_n(line: &[u8]) -> Option<u32> {
    let digits = Some(line).filter(|line| line.len() <= 3);
    based(digits?, 10).filter(|&n| n <= LAST_N)
}

#[cfg(test)]
mod tests {
    use super::*;

    #[test]
    fn the_example_of_document_01() {
        let expected = "N number answer next\n0 0 ok 1\n3 3 ok 4\n1 1 ok 4\n1 1 11 4\n\
            500 - 9 4\n479 479 ok 480\n448 448 ok 480\n447 959 ok 960\n";
        assert_eq!(output(b"0\n3\n1\n1\n500\n479\n448\n447\n"), expected);
        assert_eq!(output(b"0\n3\n1\n1\n500\n479\n448\n447"), expected);
    }

    #[test]
    fn a_bad_line_leaves_v() {
        assert_eq!(output(b""), HEADER);
        for bad in ["", "512", "999", "0000", "1 ", " 1", "+1", "1\r", "0x1", "-", "?"] {
            let input = format!("7\n{bad}\n007");
            assert_eq!(output(input.as_bytes()), format!("{HEADER}7 7 ok 8\n? - 2 8\n7 7 11 8\n"));
        }
    }
}
