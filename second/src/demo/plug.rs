//! The lines of the bench about the pulled plug: a form is stored, the phone is told its reservation,
//! the plug of an end is pulled, the end restarts. Follows docs/BENCH.md and document 02, item 4.

use super::{named, Bench, NOTHING};
use crate::lines::based;
use crate::link::numbering::{narrow, LAST_NUMBER};
use crate::link::reserving::{reserve, AHEAD};
use crate::link::states::{Receiver, Sender, NO_RECEIVER, NO_SENDER};
use crate::link::stored::{restore_receiver, restore_sender, store_receiver, store_sender};
use crate::refusals::NONE;

/// What is stored of both ends. At the start nothing is, and a restart is a new opening: so these are
/// the forms of ends newly opened.
pub struct Stored {
    phone: [u8; 29],
    /// The number that went into the phone's form.
    reservation: u32,
    cell: [u8; 33],
}

impl Stored {
    pub fn new(phone: Sender, cell: Receiver) -> Stored {
        let mut stored = Stored { phone: [0; 29], reservation: 0, cell: [0; 33] };
        stored.store_phone(phone, 0);
        store_receiver(cell, &mut stored.cell);
        stored
    }

    /// A refused store is not made.
    fn store_phone(&mut self, phone: Sender, reservation: u32) -> u8 {
        let refusal = store_sender(phone, reservation, &mut self.phone);
        if refusal == NONE {
            self.reservation = reservation;
        }
        refusal
    }
}

impl Bench {
    /// The host of the phone keeps a reservation ahead by itself, as long as no line does.
    pub fn reserve_ahead(&mut self) {
        if self.by_hand || self.phone.next < self.phone.reserved {
            return;
        }
        let reservation = (i64::from(self.phone.next) + AHEAD).min(LAST_NUMBER + 1);
        self.stored.store_phone(self.phone, narrow(reservation));
        self.phone = reserve(self.phone, self.stored.reservation).1;
    }

    /// `store phone COUNT`: so many above the next number.
    pub fn store_phone(&mut self, count: &str) -> String {
        let value = based::<u32>(count.as_bytes(), 10).filter(|_| count.len() <= 3);
        let Some(value) = value else {
            return self.bad("count");
        };
        self.by_hand = true;
        let refusal = self.stored.store_phone(self.phone, self.phone.next + value);
        self.nothing_handed(named(refusal), format!("stored {value}"))
    }

    /// The number is the one that was stored last.
    pub fn tell_phone(&mut self) -> String {
        self.by_hand = true;
        let (refusal, phone) = reserve(self.phone, self.stored.reservation);
        self.phone = phone;
        self.nothing_handed(named(refusal), "told".to_string())
    }

    pub fn cut_phone(&mut self) -> String {
        self.phone = NO_SENDER;
        self.nothing_handed(NOTHING.to_string(), "cut phone".to_string())
    }

    pub fn restart_phone(&mut self) -> String {
        let (refusal, phone) = restore_sender(&self.stored.phone);
        self.phone = phone;
        self.nothing_handed(named(refusal), "restarted".to_string())
    }

    pub fn store_cell(&mut self) -> String {
        let refusal = store_receiver(self.cell, &mut self.stored.cell);
        self.answered_alone("stored", refusal)
    }

    pub fn cut_cell(&mut self) -> String {
        self.cell = NO_RECEIVER;
        self.nothing_handed(NOTHING.to_string(), "cut cell".to_string())
    }

    pub fn restart_cell(&mut self) -> String {
        let (refusal, cell) = restore_receiver(&self.stored.cell);
        self.cell = cell;
        self.answered_alone("restarted", refusal)
    }

    /// The cell answers, and hands out neither a number nor a text.
    fn answered_alone(&self, did: &str, refusal: u8) -> String {
        let nothing = || NOTHING.to_string();
        self.row(nothing(), did.to_string(), nothing(), named(refusal), NOTHING)
    }
}

#[cfg(test)]
mod tests {
    use crate::demo::tests::said;

    #[test]
    fn the_bench_keeps_64_ahead_until_a_line_does() {
        let told = said(b"pass a\nlose 63\npass b\ncut phone\nrestart phone\npass c");
        let expected = [
            "0 64 passed 0 ok 1 a",
            "63 64 lost 63 - - 1 -",
            "64 128 passed 64 ok 65 b",
            "- 0 cut phone - - 65 -",
            "ok 128 restarted - - 65 -",
            "128 192 passed 128 ok 129 c",
        ];
        assert_eq!(told[1..], expected);
        let told = said(b"tell phone\npass a\nstore phone 2\npass b\ntell phone\nlose 2\npass c");
        let expected = [
            "ok 0 told - - 0 -",
            "13 reserve 0 passed - 5 length 0 -",
            "ok 0 stored 2 - - 0 -",
            "13 reserve 0 passed - 5 length 0 -",
            "ok 2 told - - 0 -",
            "1 2 lost 2 - - 0 -",
            "13 reserve 2 passed - 5 length 0 -",
        ];
        assert_eq!(told[1..], expected);
    }

    #[test]
    fn a_refused_store_ends_the_keeping_too_and_a_bad_line_does_not() {
        assert_eq!(
            said(b"store phone 65\npass a")[1..],
            ["2 range 0 stored 65 - - 0 -", "13 reserve 0 passed - 5 length 0 -",]
        );
        assert_eq!(said(b"store phone x\npass a")[2], "0 64 passed 0 ok 1 a");
    }

    #[test]
    fn a_number_is_sealed_again_only_where_none_was_stored() {
        // Told by no line, the phone never seals; stored and not told, it skips.
        let told = said(b"store phone 9\ncut phone\npass a\ntell phone\nrestart phone\nstore phone 1\ntell phone\npass b");
        let expected = [
            "ok 0 stored 9 - - 0 -",
            "- 0 cut phone - - 0 -",
            "12 state 0 passed - 5 length 0 -",
            "12 state 0 told - - 0 -",
            "ok 9 restarted - - 0 -",
            "ok 9 stored 1 - - 0 -",
            "ok 10 told - - 0 -",
            "9 10 passed 9 ok 10 b",
        ];
        assert_eq!(told[1..], expected);
    }

    #[test]
    fn a_cell_restored_from_an_older_moment_hands_out_again() {
        let script = b"keep 1 a\ngive 1\nstore cell\nkeep 2 b\ngive 2\ncut cell\ngive 2\nstore cell\nrestart cell\ngive 1\ngive 2";
        let expected = [
            "0 64 kept 1 - - 0 -",
            "- 64 gave 1 0 ok 1 a",
            "- 64 stored - ok 1 -",
            "1 64 kept 2 - - 1 -",
            "- 64 gave 2 1 ok 2 b",
            "- 64 cut cell - - 0 -",
            "- 64 gave 2 - 12 state 0 -",
            "- 64 stored - 12 state 0 -",
            "- 64 restarted - ok 1 -",
            "- 64 gave 1 0 11 repeat 1 -",
            "- 64 gave 2 1 ok 2 b",
        ];
        assert_eq!(said(script)[1..], expected);
    }

    #[test]
    fn lines_that_do_not_go_on_so_are_bad() {
        let script = b"store\nstore \nstore phone\nstore phone \nstore phone 1000\nstore phone 01 \nstore cell 1\n\
            store cell \nstore box\ntell\ntell cell\ntell phone \ncut\ncut box\ncut phone 1\nrestart\nrestart  phone\n\
            store phone +1";
        let why: Vec<String> = said(script)[1..]
            .iter()
            .map(|line| line.replace(" - - 0 -", "").replace("? 0 ", ""))
            .collect();
        let expected = "command|command|command|count|count|count|command|command|command\
            |command|command|command|command|command|command|command|command|count";
        assert_eq!(why.join("|"), expected);
    }
}
