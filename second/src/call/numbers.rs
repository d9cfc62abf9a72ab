//! The lines of the numbering, and lines to try them with: document 01's examples, windows, whole
//! turns of N, ends, states that cannot arise.

use super::form::number as number_field;
use super::Subject;
use crate::link::numbering::{self, History};
use crate::random::Random;

pub const SUBJECT: Subject = Subject {
    forms: &[
        "start",
        "numbering_can_arise NEXT:u32 MARKS:u32",
        "number NEXT:u32 MARKS:u32 N:u32 -> 0 2 9 10 11 12",
    ],
    answer,
    cases,
};

/// NEXT and MARKS are the numbering's state; `number` answers REFUSAL NUMBER NEXT MARKS.
fn answer(fields: &[&[u8]]) -> Option<String> {
    match *fields {
        [b"start"] => {
            let history = History::new();
            Some(format!("{} {}", history.next(), history.marks()))
        }
        [b"numbering_can_arise", next, marks] => {
            let arises = History::of_state(number_field(next)?, number_field(marks)?).is_some();
            Some(u8::from(arises).to_string())
        }
        [b"number", next, marks, n] => {
            let (next, marks) = (number_field(next)?, number_field(marks)?);
            let step = numbering::number(next, marks, number_field(n)?);
            Some(format!("{} {} {} {}", step.refusal, step.number, step.next, step.marks))
        }
        _ => None,
    }
}

/// One above the last number of a frame.
pub const FULL: u32 = 1 << 27;

/// These marks as far as they can arise: that of V-1 is set, and none below number 0.
pub fn arising(next: u32, marks: u32) -> u32 {
    match next {
        0 => 0,
        1..=31 => (marks | 1) & ((1 << next) - 1),
        _ => marks | 1,
    }
}

/// N of a number that may be below 0.
pub fn n_of(number: i64) -> u32 {
    number.rem_euclid(512) as u32
}

fn cases() -> Vec<String> {
    let parts = [examples(), walk(), windows(), turns(), ends(), states(), meeting(), chain()];
    parts.concat()
}

/// P9 to P11 of document 01, and the start of all numbering.
fn examples() -> Vec<String> {
    let lines = ["start", "number 4 0xD 500", "number 480 1 448", "number 480 1 447"];
    lines.map(str::to_string).to_vec()
}

/// The example of `walk`, each step with the state that the last one left.
fn walk() -> Vec<String> {
    let (mut next, mut marks) = (0, 0);
    let step = |n: u32| {
        let line = format!("number {next} {marks} {n}");
        let numbered = numbering::number(next, marks, n);
        (next, marks) = (numbered.next, numbered.marks);
        line
    };
    [0, 3, 1, 1, 500, 479, 448, 447].map(step).to_vec()
}

/// Every V from 0 to 600 against every N: too long for a file.
pub fn sweep() -> Vec<String> {
    let mut random = Random::seeded(9);
    let mut lines = Vec::new();
    for next in 0..=600 {
        let marks = arising(next, random.number() as u32);
        lines.extend((0..512).map(|n| line(next, marks, n)));
    }
    lines
}

fn line(next: u32, marks: u32, n: u32) -> String {
    format!("number {next} {marks} {n}")
}

/// Every V from 0 to 600 against both ends of its window and the two numbers beside V.
fn windows() -> Vec<String> {
    let mut random = Random::seeded(6);
    let mut lines = Vec::new();
    for next in 0..=600 {
        let marks = arising(next, random.number() as u32);
        let n = |offset: i64| n_of(i64::from(next) + offset);
        lines.extend([-32, -1, 0, 479].map(|offset| line(next, marks, n(offset))));
    }
    lines
}

/// Every N for a few V: all gaps that move the marks, all late numbers, both ends.
fn turns() -> Vec<String> {
    let states = [(4, 0xD), (480, 0xA5C3_0F01), (700, u32::MAX), (FULL - 100, 0x8000_0001)];
    states.iter().flat_map(|&(next, marks)| (0..512).map(move |n| line(next, marks, n))).collect()
}

/// V and N at the ends of their ranges and of their type.
fn ends() -> Vec<String> {
    let mut lines = Vec::new();
    let low = [0, 1, 2, 31, 32, 33, 479, 480, 481, 511, 512, 513, 1_023, 1_024];
    let high = [480, 479, 33, 32, 31, 1, 0].map(|below| FULL - below);
    for next in low.into_iter().chain(high).chain([FULL + 1, u32::MAX]) {
        for n in [0, 1, 31, 32, 33, 478, 479, 480, 510, 511, 512, 513, 65_536, u32::MAX] {
            lines.push(line(next, arising(next, 0), n));
        }
    }
    lines
}

/// States on both sides of each cause of 12, with an N that is new for each of them.
fn states() -> Vec<String> {
    let mut lines = Vec::new();
    let nexts = [0, 1, 2, 16, 30, 31, 32, 33, 600, FULL - 1, FULL, FULL + 1, u32::MAX];
    for next in nexts {
        let mut marks = vec![0, 2, 0xFFFF_FFFE, u32::MAX, arising(next, u32::MAX)];
        marks.extend((0..32).map(|k| 1 | 1u32 << k));
        lines.extend(marks.iter().map(|marks| line(next, *marks, next % 512)));
        lines.extend(marks.iter().map(|marks| format!("numbering_can_arise {next} {marks}")));
    }
    lines.extend((0..32).map(|k| line(0, 1 << k, 0)));
    lines.extend((1..32).map(|next| line(next, 1 | 1 << (next - 1), next)));
    lines.extend((1..32).map(|next| line(next, 1 | 1 << next, next)));
    lines
}

/// 12 before 2, 9, 10 and 11; 2 where N cut to nine bits would be 9, 10 or 11.
fn meeting() -> Vec<String> {
    let start = (4, 0xD, 500);
    let end = (FULL, 1, 0);
    let repeat = (600, 0x21, 594 - 512);
    let mut lines = Vec::new();
    for (next, marks, n) in [start, end, repeat] {
        for marks in [marks, marks & !1] {
            lines.extend([n, n + 512].map(|n| line(next, marks, n)));
        }
    }
    lines
}

/// A long random walk, each step with the state that the last one left.
fn chain() -> Vec<String> {
    let mut random = Random::seeded(7);
    let (mut next, mut marks) = (0, 0);
    let step = |_| {
        let gap = random.one_of(&[1i64, 1, 1, 2, 3, 20, 40, 480]);
        let below = random.one_of(&[0i64, 0, 4, 32]);
        let number = i64::from(next) - below + random.below((gap + below) as usize) as i64;
        let n = n_of(number);
        let line = line(next, marks, n);
        let numbered = numbering::number(next, marks, n);
        (next, marks) = (numbered.next, numbered.marks);
        line
    };
    (0..500).map(step).collect()
}

#[cfg(test)]
mod tests {
    use super::*;
    use crate::call;

    #[test]
    fn the_steps_of_walk_are_those_of_document_01() {
        let answers = walk().into_iter().map(|line| call::answer(line.as_bytes()).unwrap());
        let numbers: Vec<String> =
            answers.map(|answer| answer.split(' ').take(3).collect::<Vec<_>>().join(" ")).collect();
        let expected =
            ["0 0 1", "0 3 4", "0 1 4", "11 1 4", "9 0 4", "0 479 480", "0 448 480", "0 959 960"];
        assert_eq!(numbers, expected);
    }
}
