//! Which numbers a sender may still seal, and how it is told that it may seal more.
//! Follows document 02, item 4.
//!
//! The numbers left to a sender are listed one by one, and so is every reservation that it may be
//! told; what can arise and what is refused is asked of these lists.

use crate::link::numbering::LAST_NUMBER;
use crate::link::states::Sender;
use crate::refusals::{first, NONE, RANGE, STATE};
use std::collections::BTreeSet;

/// A reservation lies at most so far above the next number.
pub const AHEAD: i64 = 64;

impl Sender {
    /// The numbers that it may seal, none where it waits for a reservation; nothing when 12 applies.
    pub fn left(&self) -> Option<BTreeSet<i64>> {
        let reserved = i64::from(self.reserved);
        let mut reachable = self.ahead().filter(|_| !self.link.cannot_arise());
        reachable.find(|&number| number == reserved)?;
        Some(self.ahead().take_while(|&number| number < reserved).collect())
    }

    /// Every reservation that it may be told: the present one and those above it.
    pub fn reservations(&self) -> BTreeSet<i64> {
        self.ahead().filter(|&number| number >= self.reserved.into()).collect()
    }

    /// The next number and the 64 above it, as far as a reservation may go: one above the last number.
    fn ahead(&self) -> impl Iterator<Item = i64> {
        let next = i64::from(self.next);
        (next..=next + AHEAD).filter(|&number| number <= LAST_NUMBER + 1)
    }
}

/// The sender afterwards seals the numbers below the reservation; a refused one stays as it is.
pub fn reserve(sender: Sender, reservation: u32) -> (u8, Sender) {
    let refusal = first(&[
        (STATE, sender.left().is_none()),
        (RANGE, !sender.reservations().contains(&reservation.into())),
    ]);
    let reserved = if refusal == NONE { reservation } else { sender.reserved };
    (refusal, Sender { reserved, ..sender })
}

#[cfg(test)]
mod tests {
    use super::*;
    use crate::link::states::Link;

    const END: u32 = 1 << 27;

    fn at(next: u32, reserved: u32) -> Sender {
        let link = Link { key: [0x5A; 16], iov: 0, sapi: 3, direction: 1 };
        Sender { link, next, reserved }
    }

    fn left(next: u32, reserved: u32) -> Option<usize> {
        at(next, reserved).left().map(|left| left.len())
    }

    #[test]
    fn at_most_64_numbers_are_left_and_none_above_the_last() {
        assert_eq!([left(0, 0), left(7, 7), left(7, 8)], [Some(0), Some(0), Some(1)]);
        assert_eq!([left(7, 71), left(7, 72), left(7, 6)], [Some(64), None, None]);
        assert_eq!([left(END - 64, END), left(END - 65, END)], [Some(64), None]);
        assert_eq!([left(END, END), left(END - 1, END)], [Some(0), Some(1)]);
        assert_eq!([left(END, END + 1), left(END + 1, END + 1)], [None, None]);
        assert_eq!([left(u32::MAX, u32::MAX), left(u32::MAX, 62)], [None, None]);
        assert_eq!(at(7, 9).left(), Some(BTreeSet::from([7, 8])));
    }

    #[test]
    fn a_reservation_neither_falls_nor_goes_too_far_ahead() {
        let told = |reservation| reserve(at(7, 20), reservation);
        for reservation in [20, 21, 70, 71] {
            assert_eq!(told(reservation), (NONE, at(7, reservation)));
        }
        for reservation in [0, 7, 19, 72, END, u32::MAX] {
            assert_eq!(told(reservation), (RANGE, at(7, 20)));
        }
        assert_eq!(reserve(at(END - 3, END - 2), END), (NONE, at(END - 3, END)));
        assert_eq!(reserve(at(END - 3, END - 2), END + 1), (RANGE, at(END - 3, END - 2)));
    }

    #[test]
    fn a_state_is_named_before_a_range() {
        assert_eq!(reserve(at(7, 6), 7), (STATE, at(7, 6)));
        assert_eq!(reserve(at(7, 6), 5), (STATE, at(7, 6)));
    }
}
