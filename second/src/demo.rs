//! The program `demo`: a bench by a script. A phone seals, a box passes, loses, keeps and gives,
//! a cell opens, and each line shows what they did. Follows docs/BENCH.md and, for the two ends,
//! document 01, "The link".

mod plug;

use crate::lines::{based, lines, octets};
use crate::link::ends::{open, seal, Answer};
use crate::link::states::{open_receiver, open_sender, Receiver, Sender};
use crate::refusals::{NONE, REPEAT, ROOM};
use plug::Stored;

/// A key that everybody may know.
const KEY: [u8; 16] = [0, 1, 2, 3, 4, 5, 6, 7, 8, 9, 10, 11, 12, 13, 14, 15];

/// Not 0, under which INPUT as IOV xor (SX + n) would be right.
const IOV: u32 = 0x0123_4567;

/// The words of the refusal table, by their numbers.
const REASONS: [&str; 13] = [
    "key", "range", "size", "room", "length", "version", "spare", "other", "start", "end",
    "repeat", "state", "reserve",
];

/// A line that is kept whole has at most 48 octets.
const LONGEST: usize = 48;

/// A text of 40 octets with its header.
const FRAME: usize = 46;

/// What stands for nothing in a column.
const NOTHING: &str = "-";

pub fn output(input: &[u8]) -> Vec<u8> {
    let mut bench = Bench::new();
    let answers = lines(input).into_iter().map(|line| bench.answer(line).into_bytes());
    [heading().into_bytes()].into_iter().chain(answers).flatten().collect()
}

/// What a heading says.
fn heading() -> String {
    row(["phone", "reserved", "box", "number", "answer", "next"].map(String::from), "text")
}

struct Bench {
    phone: Sender,
    cell: Receiver,
    shelf: [Vec<u8>; 10],
    stored: Stored,
    /// Whether the script has told of the phone's reservation itself.
    by_hand: bool,
}

impl Bench {
    fn new() -> Bench {
        let (_, phone) = open_sender(&KEY, IOV, 3, 0);
        let (_, cell) = open_receiver(&KEY, IOV, 3, 0);
        let stored = Stored::new(phone, cell);
        Bench { phone, cell, shelf: Default::default(), stored, by_hand: false }
    }

    fn answer(&mut self, line: &[u8]) -> String {
        if line.len() > LONGEST {
            return self.bad("long");
        }
        let Ok(text) = std::str::from_utf8(line) else {
            return self.bad("octet");
        };
        if text.is_empty() {
            return self.bad("empty");
        }
        if !text.chars().all(|letter| letter == ' ' || letter.is_ascii_graphic()) {
            return self.bad("octet");
        }
        if text.starts_with('#') {
            return format!("{text}\n");
        }
        match text {
            "tell phone" => return self.tell_phone(),
            "cut phone" => return self.cut_phone(),
            "restart phone" => return self.restart_phone(),
            "store cell" => return self.store_cell(),
            "cut cell" => return self.cut_cell(),
            "restart cell" => return self.restart_cell(),
            _ => {}
        }
        if let Some(count) = text.strip_prefix("store phone ") {
            return self.store_phone(count);
        }
        match text.split_once(' ') {
            Some(("pass", text)) => self.pass(text),
            Some(("lose", count)) => self.lose(count),
            Some(("keep", rest)) => self.keep(rest),
            Some(("give", place)) => self.give(place),
            Some(("noise", digits)) => self.noise(digits),
            _ => self.bad("command"),
        }
    }

    fn pass(&mut self, text: &str) -> String {
        let (number, frame) = self.seal(text);
        self.hand(number, "passed".to_string(), &frame)
    }

    /// Frames that nobody sees: the last of them is told.
    fn lose(&mut self, count: &str) -> String {
        let value = based::<u32>(count.as_bytes(), 10).filter(|_| count.len() <= 3);
        let Some(value @ 1..) = value else {
            return self.bad("count");
        };
        let numbers = (0..value).map(|_| self.seal("lost").0);
        let last = numbers.last().unwrap_or_default();
        self.nothing_handed(last, format!("lost {value}"))
    }

    fn keep(&mut self, rest: &str) -> String {
        let Some((place, text)) = rest.split_once(' ') else {
            return self.bad("place");
        };
        let Some(k) = read_place(place) else {
            return self.bad("place");
        };
        let (number, frame) = self.seal(text);
        self.shelf[k] = frame;
        self.nothing_handed(number, format!("kept {k}"))
    }

    fn give(&mut self, place: &str) -> String {
        let Some(k) = read_place(place) else {
            return self.bad("place");
        };
        let frame = self.shelf[k].clone();
        self.hand(NOTHING.to_string(), format!("gave {k}"), &frame)
    }

    fn noise(&mut self, digits: &str) -> String {
        match octets(digits.as_bytes()) {
            Some(octets) => self.hand(NOTHING.to_string(), "handed".to_string(), &octets),
            None => self.bad("hex"),
        }
    }

    /// What the phone's column shows, and the frame, which is empty where it is refused.
    fn seal(&mut self, text: &str) -> (String, Vec<u8>) {
        self.reserve_ahead();
        let mut frame = vec![0; FRAME];
        let Answer { refusal, number, length, state } =
            seal(self.phone, text.as_bytes(), &mut frame);
        self.phone = state;
        frame.truncate(length);
        let shown = if refusal == NONE { number.to_string() } else { named(refusal) };
        (shown, frame)
    }

    fn hand(&mut self, phone: String, did: String, frame: &[u8]) -> String {
        let mut text = [0; FRAME];
        let Answer { refusal, number, length, state } = open(self.cell, frame, &mut text);
        self.cell = state;
        let number = match refusal {
            NONE | REPEAT | ROOM => number.to_string(),
            _ => NOTHING.to_string(),
        };
        let text = match refusal {
            NONE => shown(&text[..length]),
            _ => NOTHING.to_string(),
        };
        self.row(phone, did, number, named(refusal), &text)
    }

    fn nothing_handed(&self, phone: String, did: String) -> String {
        let nothing = || NOTHING.to_string();
        self.row(phone, did, nothing(), nothing(), NOTHING)
    }

    /// The columns of a line; the phone's reservation and the cell's V are those afterwards.
    fn row(
        &self,
        phone: String,
        did: String,
        number: String,
        answer: String,
        text: &str,
    ) -> String {
        let (reserved, next) = (self.phone.reserved.to_string(), self.cell.next.to_string());
        row([phone, reserved, did, number, answer, next], text)
    }

    fn bad(&self, why: &str) -> String {
        self.nothing_handed("?".to_string(), why.to_string())
    }
}

/// One digit.
fn read_place(place: &str) -> Option<usize> {
    based(place.as_bytes(), 10).filter(|_| place.len() == 1)
}

fn named(refusal: u8) -> String {
    match refusal {
        NONE => "ok".to_string(),
        _ => format!("{refusal} {}", REASONS[usize::from(refusal) - 1]),
    }
}

/// Octets that are no printable ASCII are shown as a full stop.
fn shown(text: &[u8]) -> String {
    text.iter().map(|&octet| if (32..127).contains(&octet) { octet.into() } else { '.' }).collect()
}

/// Six columns of eleven octets, then the text.
fn row(columns: [String; 6], text: &str) -> String {
    let columns: String = columns.iter().map(|column| format!("{column:<11}")).collect();
    format!("{columns}{text}\n")
}

#[cfg(test)]
pub mod tests {
    use super::*;

    pub fn said(input: &[u8]) -> Vec<String> {
        let output = String::from_utf8(output(input)).expect("all that is shown is ASCII");
        output.lines().map(|line| line.split_whitespace().collect::<Vec<_>>().join(" ")).collect()
    }

    #[test]
    fn empty_input_has_the_heading_alone() {
        assert_eq!(said(b""), ["phone reserved box number answer next text"]);
    }

    #[test]
    fn a_repeat_a_late_frame_and_a_loss() {
        let script = b"pass a b\nkeep 3 c\nlose 2\npass d\ngive 3\ngive 3";
        let expected = [
            "0 64 passed 0 ok 1 a b",
            "1 64 kept 3 - - 1 -",
            "3 64 lost 2 - - 1 -",
            "4 64 passed 4 ok 5 d",
            "- 64 gave 3 1 ok 5 c",
            "- 64 gave 3 1 11 repeat 5 -",
        ];
        assert_eq!(said(script)[1..], expected);
    }

    #[test]
    fn of_480_lost_frames_the_next_is_misread() {
        let told = said(b"pass a\nlose 480\npass b");
        assert_eq!(told[3].split(' ').collect::<Vec<_>>()[..5], ["481", "512", "passed", "-", "9"]);
        let told = said(b"lose 99\npass a\nlose 480\npass b");
        assert!(told[4].starts_with("580 640 passed 68 ok 100 "));
        let told = said(b"lose 99\npass a\nlose 479\npass b");
        assert_eq!(told[4], "579 640 passed 579 ok 580 b");
    }

    #[test]
    fn bad_lines_say_why() {
        let script = b"\n?\nPASS a\npass\nlose 0\nlose +1\nlose 1000\nkeep\nkeep 1\nkeep 1a\n\
            keep 10 a\ngive\ngive a\ngive 1 \nnoise 1\nnoise g0\npass a\r\npass \xC3\xA9\npass a\t";
        let why: Vec<String> =
            said(script)[1..].iter().map(|line| line.replace(" - - 0 -", "")).collect();
        let why: Vec<String> = why.iter().map(|line| line.replace("? 0 ", "? ")).collect();
        let expected = "? empty|? command|? command|? command|? count|? count|? count|? command\
            |? place|? place|? place|? command|? place|? place|? hex|? hex|? octet|? octet|? octet";
        assert_eq!(why.join("|"), expected);
    }

    #[test]
    fn the_phone_refuses_too() {
        let long = format!("pass {}\nkeep 1 {}\n", "a".repeat(41), "a".repeat(41));
        let told = said(format!("pass \n{long}give 1").as_bytes());
        assert_eq!(told[1], "3 size 64 passed - 5 length 0 -");
        assert_eq!(told[2], "4 room 64 passed - 5 length 0 -");
        assert_eq!(told[3], "4 room 64 kept 1 - - 0 -");
        assert_eq!(told[4], "- 64 gave 1 - 5 length 0 -");
    }
}
