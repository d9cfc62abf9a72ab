//! The lines of the stored forms (document 02, item 4), and lines to try them with.

mod causes;
mod cells;
mod damage;
mod phones;
mod trips;

use super::ends::{receiver, sender};
use super::form::{handed_out, lent, number, octets_field, shown};
use super::Subject;
use crate::link::states::{Link, Receiver, Sender};
use crate::link::stored::{restore_receiver, restore_sender, store_receiver, store_sender};

pub const SUBJECT: Subject = Subject {
    forms: &[
        "store_sender SENDER RESERVATION:u32 ROOM:size -> 0 2 4 12",
        "store_receiver RECEIVER ROOM:size -> 0 4 12",
        "restore_sender SENDER_FORM -> 0 5 6 12",
        "restore_receiver RECEIVER_FORM -> 0 5 6 12",
    ],
    answer,
    cases: || {
        let parts =
            [damage::lines(), causes::lines(), trips::lines(), phones::lines(), cells::lines()];
        parts.concat()
    },
};

/// A store answers REFUSAL OUTPUT, a restore REFUSAL and the state that it makes.
fn answer(fields: &[&[u8]]) -> Option<String> {
    match *fields {
        [b"store_sender", ref state @ .., reservation, room] => {
            let (sender, mut output) = (sender(state)?, lent(room)?);
            let refusal = store_sender(sender, number(reservation)?, &mut output);
            Some(handed_out(refusal, &[output]))
        }
        [b"store_receiver", ref state @ .., room] => {
            let (receiver, mut output) = (receiver(state)?, lent(room)?);
            let refusal = store_receiver(receiver, &mut output);
            Some(handed_out(refusal, &[output]))
        }
        [b"restore_sender", octets] => {
            let (refusal, sender) = restore_sender(&octets_field(octets)?);
            Some(format!("{refusal} {sender}"))
        }
        [b"restore_receiver", octets] => {
            let (refusal, receiver) = restore_receiver(&octets_field(octets)?);
            Some(format!("{refusal} {receiver}"))
        }
        _ => None,
    }
}

fn store_sender_line(sender: Sender, reservation: u32, room: usize) -> String {
    format!("store_sender {sender} {reservation} {room}")
}

fn store_receiver_line(receiver: Receiver, room: usize) -> String {
    format!("store_receiver {receiver} {room}")
}

fn restore_sender_line(form: &[u8]) -> String {
    format!("restore_sender {}", shown(form))
}

fn restore_receiver_line(form: &[u8]) -> String {
    format!("restore_receiver {}", shown(form))
}

/// Octets read as the form of either end.
fn restore_lines(octets: &[u8]) -> [String; 2] {
    [restore_sender_line(octets), restore_receiver_line(octets)]
}

/// The octets of a form, whether or not its state can arise: written by hand, octet after octet.
fn form_of(link: Link, words: &[u32]) -> Vec<u8> {
    let mut form = vec![0, 23 + 4 * words.len() as u8, 1];
    form.extend(link.key);
    form.extend(link.iov.to_be_bytes());
    form.extend([link.sapi, link.direction]);
    form.extend(words.iter().flat_map(|word| word.to_be_bytes()));
    form
}

#[cfg(test)]
mod tests {
    use crate::call;

    const KEY: &str = "000102030405060708090A0B0C0D0E0F";

    fn answer_to(line: &str) -> String {
        let line = line.replace('K', KEY);
        call::answer(line.as_bytes()).unwrap_or("?".to_string()).replace(KEY, "K")
    }

    #[test]
    fn a_sender_is_stored_with_a_reservation_and_goes_on_there() {
        let stored = answer_to("store_sender K 0x12345678 3 1 580 600 640 30");
        assert_eq!(stored, "0 001B01K12345678030100000280AA");
        let restored = answer_to("restore_sender 001B01K12345678030100000280");
        assert_eq!(restored, "0 K 305419896 3 1 640 640");
    }

    #[test]
    fn a_receiver_is_stored_with_v_and_the_marks() {
        let stored = answer_to("store_receiver K 0x12345678 3 1 600 0x80000005 33");
        assert_eq!(stored, "0 001F01K1234567803010000025880000005");
        let restored = answer_to("restore_receiver 001F01K1234567803010000025880000005");
        assert_eq!(restored, "0 K 305419896 3 1 600 2147483653");
    }

    #[test]
    fn a_refused_store_shows_the_lent_octets_and_a_refused_restore_no_end() {
        assert_eq!(answer_to("store_sender K 1 2 0 7 9 8 2"), "2 AAAA");
        assert_eq!(answer_to("store_sender K 1 2 0 7 9 9 2"), "4 AAAA");
        assert_eq!(answer_to("store_receiver K 1 2 0 7 2 2"), "12 AAAA");
        let nothing = "00".repeat(16);
        assert_eq!(answer_to("restore_sender -"), format!("5 {nothing} 0 0 2 0 0"));
        assert_eq!(answer_to("restore_receiver 00"), format!("5 {nothing} 0 0 2 0 0"));
    }
}
