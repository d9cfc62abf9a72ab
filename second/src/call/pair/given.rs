//! What a line of f8 or f9 gives, and the line that says so.

use crate::call::form::shown;
use crate::cases::key_of;
use crate::product::pair::{self, F9Inputs};
use crate::random::Random;

/// What a line of either gives. BEARER is f8's alone, FRESH f9's.
#[derive(Clone)]
pub struct Given {
    pub key: Vec<u8>,
    pub count: u32,
    pub bearer: u8,
    pub fresh: u32,
    pub direction: u8,
    pub message: Vec<u8>,
    pub bits: u32,
}

impl Given {
    /// So many octets of a message, of which so many bits are taken; all else would do.
    pub fn of(octets: usize, bits: u32) -> Given {
        let mut random = Random::seeded(31);
        Given {
            key: key_of(16),
            count: 0xDEAD_BEEF,
            bearer: 21,
            fresh: 0x0123_4567,
            direction: 1,
            message: (0..octets).map(|_| random.octet()).collect(),
            bits,
        }
    }

    pub fn f8(&self, room: usize) -> String {
        let Given { key, count, bearer, direction, message, bits, .. } = self;
        let (key, message) = (shown(key), shown(message));
        format!("f8 {key} {count} {bearer} {direction} {message} {bits} {room}")
    }

    pub fn f9(&self) -> String {
        format!("f9 {}", self.f9_fields())
    }

    pub fn check(&self, code: u32) -> String {
        format!("check_code {} 0x{code:08X}", self.f9_fields())
    }

    fn f9_fields(&self) -> String {
        let Given { key, count, fresh, direction, message, bits, .. } = self;
        format!("{} {count} {fresh} {direction} {} {bits}", shown(key), shown(message))
    }

    /// The right code, or 0 where it is refused.
    pub fn code(&self) -> u32 {
        let &Given { count, fresh, direction, bits, .. } = self;
        pair::f9(F9Inputs { count, fresh, direction }, &self.key, &self.message, bits).1
    }

    /// All three, with as much room as the message has octets and with the right code.
    pub fn all(&self) -> [String; 3] {
        [self.f8(self.message.len()), self.f9(), self.check(self.code())]
    }
}
