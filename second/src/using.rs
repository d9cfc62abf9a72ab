//! The program `using`: texts from a phone to a cell, told line by line, with a pulled plug before the
//! last. Follows docs/USING.md and, for the two ends, document 01, "The link", and document 02, item 4.

use crate::link::ends::{open, seal, Answer};
use crate::link::reserving::reserve;
use crate::link::states::{open_receiver, open_sender, Receiver, Sender};
use crate::link::stored::{restore_sender, store_sender};
use crate::refusals::{NONE, REPEAT, RESERVE};

/// A phone with its disk, a cell, the last frame sealed, and what has been told so far.
struct Ends {
    phone: Sender,
    disk: [u8; 29],
    cell: Receiver,
    frame: Vec<u8>,
    told: String,
}

pub fn output() -> String {
    let key: Vec<u8> = (0..16).collect();
    let (_, phone) = open_sender(&key, 0x0123_4567, 3, 0);
    let (_, cell) = open_receiver(&key, 0x0123_4567, 3, 0);
    let mut ends = Ends { phone, disk: [0; 29], cell, frame: Vec::new(), told: String::new() };
    ends.send("");
    ends.send("hello, cell");
    ends.open();
    ends.open();
    ends.send("how do you read me?");
    ends.open();
    ends.restart();
    ends.send("back on the air");
    ends.open();
    ends.told
}

impl Ends {
    /// A text that waits for a reservation is sealed once there is one.
    fn send(&mut self, text: &str) {
        let mut frame = vec![0; 1526];
        let mut answer = seal(self.phone, text.as_bytes(), &mut frame);
        if answer.refusal == RESERVE {
            self.reserve();
            answer = seal(self.phone, text.as_bytes(), &mut frame);
        }
        let Answer { refusal, number, length, state } = answer;
        frame.truncate(length);
        self.phone = state;
        self.frame = frame;
        self.told += &match refusal {
            NONE => format!("seal: frame {number}, {length} octets\n"),
            _ => format!("seal: refused {refusal}\n"),
        };
    }

    /// As far ahead as it may be: stored first, and then told.
    fn reserve(&mut self) {
        let highest = self.phone.next + 64;
        match store_sender(self.phone, highest, &mut self.disk) {
            NONE => {
                self.told += &format!("store: numbers below {highest}\n");
                self.phone = reserve(self.phone, highest).1;
            }
            refusal => self.told += &format!("store: refused {refusal}\n"),
        }
    }

    /// Of the phone its disk is left.
    fn restart(&mut self) {
        let (refusal, phone) = restore_sender(&self.disk);
        self.phone = phone;
        self.told += &match refusal {
            NONE => format!("restore: next number {}\n", phone.next),
            _ => format!("restore_sender: refused {refusal}\n"),
        };
    }

    fn open(&mut self) {
        let mut text = vec![0; 1520];
        let Answer { refusal, number, length, state } = open(self.cell, &self.frame, &mut text);
        self.cell = state;
        self.told += &match refusal {
            NONE => format!("open: frame {number}, {}\n", String::from_utf8_lossy(&text[..length])),
            REPEAT => format!("open: a repeat of frame {number}\n"),
            _ => format!("open: refused {refusal}\n"),
        };
    }
}
