//! The numbering of a receiver: its whole history, and what a frame's N means in it.
//! Follows document 01, "The link", the paragraph on the receiver's state.
//!
//! The receiver remembers every number that it has accepted; V and the marks are read off
//! that set, and the candidate is found by trying all numbers of the window.

use crate::refusals::{first, END, NONE, RANGE, REPEAT, START, STATE};
use std::collections::BTreeSet;

/// 2^27 - 1, the last number of a frame.
pub const LAST_NUMBER: i64 = 134_217_727;

/// The largest N on the air.
pub const LAST_N: u32 = 511;

/// Every number accepted so far.
pub struct History {
    accepted: BTreeSet<i64>,
}

impl History {
    pub fn new() -> History {
        History { accepted: BTreeSet::new() }
    }

    /// A history that leads to this state, or nothing for a state that cannot arise.
    pub fn of_state(next: u32, marks: u32) -> Option<History> {
        (!cannot_arise(next, marks)).then(|| History { accepted: marked(next, marks) })
    }

    /// The history of these numbers, or nothing where it does not lead to this V: a number is none,
    /// or V is not one above the highest.
    pub fn of_numbers(accepted: BTreeSet<i64>, v: i64) -> Option<History> {
        let numbers = accepted.iter().all(|number| (0..=LAST_NUMBER).contains(number));
        Some(History { accepted }).filter(|history| numbers && history.next() == v)
    }

    /// Whether each of the 32 numbers below V was accepted, the lowest of them first.
    pub fn window(&self) -> impl Iterator<Item = bool> + '_ {
        below(self.next()).map(|number| self.accepted.contains(&number))
    }

    /// V: one above the highest accepted, or 0 if none was.
    pub fn next(&self) -> i64 {
        self.accepted.last().map_or(0, |highest| highest + 1)
    }

    /// Bit k tells whether the number V-1-k was accepted.
    pub fn marks(&self) -> u32 {
        let accepted = |k: &u32| self.accepted.contains(&(self.next() - 1 - i64::from(*k)));
        (0..32).filter(accepted).map(|k| 1 << k).sum()
    }

    /// The one number n with n mod 512 = N and V-32 <= n <= V+479.
    pub fn candidate(&self, n: i64) -> i64 {
        let v = self.next();
        let mut window = v - 32..=v + 479;
        window
            .find(|number| number.rem_euclid(512) == n)
            .expect("512 numbers in a row have every remainder")
    }

    /// 9, 10 or 11 for a candidate, or 0.
    pub fn refusal(&self, candidate: i64) -> u8 {
        first(&[
            (START, candidate < 0),
            (END, candidate > LAST_NUMBER),
            (REPEAT, self.accepted.contains(&candidate)),
        ])
    }

    pub fn accept(&mut self, candidate: i64) {
        self.accepted.insert(candidate);
    }
}

/// The 32 numbers below V, of which a receiver keeps whether it has accepted them.
pub fn below(v: i64) -> impl Iterator<Item = i64> {
    v - 32..v
}

/// The numbers that have a mark; below 0 there may be some in a state that cannot arise.
fn marked(next: u32, marks: u32) -> BTreeSet<i64> {
    let bits = (0..32).filter(|k| marks >> k & 1 == 1);
    bits.map(|k| i64::from(next) - 1 - k).collect()
}

/// 12, as far as V and the marks go.
fn cannot_arise(next: u32, marks: u32) -> bool {
    let v = i64::from(next);
    let marked = marked(next, marks);
    let next_above = v > LAST_NUMBER + 1;
    let mark_at_zero = v == 0 && !marked.is_empty();
    let no_last_mark = v > 0 && !marked.contains(&(v - 1));
    let mark_below_zero = marked.iter().any(|&number| number < 0);
    next_above || mark_at_zero || no_last_mark || mark_below_zero
}

/// What the numbering step hands out.
#[derive(Debug, PartialEq)]
pub struct Numbered {
    pub refusal: u8,
    pub number: u32,
    pub next: u32,
    pub marks: u32,
}

/// The numbering step alone: 12, 2 for N above 511, 9, 10, 11; the number with 0 and 11.
pub fn number(next: u32, marks: u32, n: u32) -> Numbered {
    let refused = |refusal, number| Numbered { refusal, number, next, marks };
    let Some(mut history) = History::of_state(next, marks) else {
        return refused(STATE, 0);
    };
    if n > LAST_N {
        return refused(RANGE, 0);
    }
    let candidate = history.candidate(n.into());
    match history.refusal(candidate) {
        NONE => {
            history.accept(candidate);
            let (next, marks) = (narrow(history.next()), history.marks());
            Numbered { refusal: NONE, number: narrow(candidate), next, marks }
        }
        REPEAT => refused(REPEAT, narrow(candidate)),
        refusal => refused(refusal, 0),
    }
}

/// A number from 0 to 2^27 in the type of the product's calls.
pub fn narrow(number: i64) -> u32 {
    u32::try_from(number).expect("no number handed out is below 0 or above 2^27")
}

#[cfg(test)]
mod tests {
    use super::*;

    fn numbered(refusal: u8, number: u32, next: u32, marks: u32) -> Numbered {
        Numbered { refusal, number, next, marks }
    }

    #[test]
    fn p9_to_p11_of_document_01() {
        assert_eq!(number(4, 0b1101, 500), numbered(START, 0, 4, 0b1101));
        assert_eq!(number(480, 1, 448), numbered(NONE, 448, 480, 0x8000_0001));
        assert_eq!(number(480, 1, 447), numbered(NONE, 959, 960, 1));
    }

    #[test]
    fn a_gap_moves_the_marks_and_a_long_gap_leaves_one() {
        assert_eq!(number(64, u32::MAX, 64).marks, u32::MAX);
        assert_eq!(number(64, u32::MAX, 94).marks, 0x8000_0001);
        assert_eq!(number(64, u32::MAX, 95).marks, 1);
        assert_eq!(number(64, u32::MAX, 96).marks, 1);
        assert_eq!(number(64, u32::MAX, 128).marks, 1);
    }

    #[test]
    fn the_last_number_is_the_end() {
        let full = 1 << 27;
        assert_eq!(number(full - 1, 1, 511), numbered(NONE, full - 1, full, 0b11));
        assert_eq!(number(full, 1, 511), numbered(REPEAT, full - 1, full, 1));
        assert_eq!(number(full, 1, 510), numbered(NONE, full - 2, full, 0b11));
        assert_eq!(number(full, 1, 0), numbered(END, 0, full, 1));
        assert_eq!(number(full + 1, 1, 0), numbered(STATE, 0, full + 1, 1));
    }

    #[test]
    fn each_cause_of_12_alone_and_its_neighbours_that_arise() {
        assert!(cannot_arise(134_217_729, 1) && !cannot_arise(134_217_728, 1));
        assert!(cannot_arise(0, 1) && cannot_arise(0, 1 << 31) && !cannot_arise(0, 0));
        assert!(cannot_arise(5, 0b10) && cannot_arise(5, 0) && !cannot_arise(5, 0b11));
        assert!(cannot_arise(5, 0b10_0001) && !cannot_arise(5, 0b1_0001));
        assert!(cannot_arise(31, u32::MAX) && !cannot_arise(32, u32::MAX));
    }

    #[test]
    fn a_state_and_its_history_tell_the_same() {
        for (next, marks) in [(0, 0), (1, 1), (5, 0b1_0101), (32, u32::MAX), (600, 0x8000_0001)] {
            let history = History::of_state(next, marks).unwrap();
            assert_eq!((narrow(history.next()), history.marks()), (next, marks));
        }
    }
}
