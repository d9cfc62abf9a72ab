//! The test input for the program `walk`: the start, bad lines, whole turns, every gap,
//! both ends of the window, random numbers. The end of the numbers is in `huge walk`.

use super::{ended, spoiled, NEAR_HEX};
use crate::link::numbering::History;
use crate::random::Random;
use crate::refusals::NONE;
use crate::walk::read_n;

/// Lines between bars, the first of them empty: above 511, too many digits, signs, spaces,
/// other digits, and numbers that are small in 16, 32 or 64 bits.
const BAD_LINES: &str = "| |512|513|599|600|999|1000|0000|0001|0511|5110|-|-1|+1|--1|1-|1+|1.|.1\
    |1.0|1,|1e1|0x1|0X1|x|?|a|A|1a|a1|11a|1 | 1|1 1|1  |  1|1\t|\t1|\t|1\r|\r|\r1|1\u{b}|1\u{c}\
    |1\u{7f}|ok|N|N number answer next|65536|65537|4294967296|4294967297\
    |18446744073709551616|18446744073709551617|1_0";

pub fn input() -> String {
    let mut walk = Walk { history: History::new(), lines: Vec::new() };
    walk.start();
    walk.forms();
    walk.bad_lines();
    walk.turns();
    walk.gaps();
    walk.random_numbers();
    ended(walk.lines)
}

/// The lines so far, and what a receiver has accepted of them.
struct Walk {
    history: History,
    lines: Vec<String>,
}

impl Walk {
    fn add(&mut self, line: String) {
        if let Some(n) = read_n(line.as_bytes()) {
            let candidate = self.history.candidate(n.into());
            if self.history.refusal(candidate) == NONE {
                self.history.accept(candidate);
            }
        }
        self.lines.push(line);
    }

    /// Adds the line of a number, which the receiver may read as another one.
    fn present(&mut self, number: i64) {
        self.add(number.rem_euclid(512).to_string());
    }

    /// Numbers below 0 as long as there are some, beside the first numbers.
    fn start(&mut self) {
        for offset in [-32, -31, -2, -1] {
            self.present(offset);
        }
        self.bad_lines();
        for number in 0..40 {
            for offset in [-32, -31, -1, 0, -1] {
                self.present(number + offset);
            }
        }
    }

    /// Leading zeros, up to three digits; they repeat numbers or leave long gaps.
    fn forms(&mut self) {
        for form in ["1", "01", "001", "0", "00", "000", "9", "09", "009", "99", "099", "511"] {
            self.add(form.to_string());
        }
    }

    /// None of these changes the history.
    fn bad_lines(&mut self) {
        self.lines.extend(BAD_LINES.split('|').map(str::to_string));
        for letter in NEAR_HEX {
            self.lines.extend([format!("{letter}"), format!("1{letter}"), format!("{letter}11")]);
        }
        self.lines.push("1".repeat(10_000));
    }

    /// Every N in its order, then backwards: some late ones, and long gaps.
    fn turns(&mut self) {
        let v = self.history.next();
        (v..v + 600).for_each(|number| self.present(number));
        let v = self.history.next();
        (v - 600..v).rev().for_each(|number| self.present(number));
    }

    /// Every gap of the window; after it the numbers at the lower end and one beyond.
    fn gaps(&mut self) {
        for gap in 0..=479 {
            let v = self.history.next();
            self.present(v + gap);
            for below in [32, 1 + gap % 32] {
                self.present(self.history.next() - below);
            }
        }
        for beyond in [-33, 480, -32, 479, -31, 478] {
            self.present(self.history.next() + beyond);
        }
    }

    /// Loss, repeats and reordering; now and then any N, or a line nearly of the form.
    fn random_numbers(&mut self) {
        let mut random = Random::seeded(10);
        for _ in 0..2_000 {
            let v = self.history.next();
            match random.below(16) {
                0..=7 => self.present(v + random.below(3) as i64),
                8..=12 => self.present(v - 1 - random.below(32) as i64),
                13 => self.present(v + random.below(480) as i64),
                14 => self.present(random.below(512) as i64),
                _ => self.add(spoiled("511", &mut random)),
            }
        }
    }
}

#[cfg(test)]
mod tests {
    use super::*;
    use crate::walk;

    #[test]
    fn every_answer_but_the_end_is_met() {
        let output = walk::output(input().as_bytes());
        for answer in ["ok", "2", "9", "11"] {
            assert!(output.lines().any(|line| line.split(' ').nth(2) == Some(answer)), "{answer}");
        }
    }

    #[test]
    fn every_bad_line_is_bad() {
        let mut walk = Walk { history: History::new(), lines: Vec::new() };
        walk.bad_lines();
        let output = walk::output(ended(walk.lines).as_bytes());
        assert!(output.lines().skip(1).all(|line| line == "? - 2 0"));
    }
}
