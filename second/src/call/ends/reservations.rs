//! Document 02, item 4: senders at each end of what they may be, and reservations at each end of
//! what they may be told.

use super::{reserve_line, seal_line, LINK};
use crate::call::numbers::FULL;
use crate::link::states::{Link, Sender};
use crate::random::Random;

pub fn lines() -> Vec<String> {
    let told = told().into_iter().map(|(sender, reservation)| reserve_line(sender, reservation));
    let states = states().into_iter().flat_map(|sender| {
        [
            format!("sender_can_arise {sender}"),
            reserve_line(sender, sender.reserved),
            seal_line(sender, &[0x55], 7),
        ]
    });
    told.chain(states).chain(receivers()).collect()
}

/// Next numbers at both ends of the numbers.
const NEXTS: [u32; 14] =
    [0, 1, 2, 63, 64, 65, 448, 511, 512, 70_000, FULL - 65, FULL - 64, FULL - 1, FULL];

/// Senders that can arise with numbers that they are told: around the present reservation, the next
/// number, 64 above it and 2^27; some that only wrapping would bring there. Over the last 64 numbers,
/// where 2^27 takes over from the 64, every next number.
pub fn told() -> Vec<(Sender, u32)> {
    let mut told = Vec::new();
    let mut add = |next: u32, left: u32, mut reservations: Vec<u32>| {
        let sender = Sender { link: LINK, next, reserved: (next + left).min(FULL) };
        reservations.extend(around(&[sender.reserved, next + 64, FULL]));
        reservations.sort();
        reservations.dedup();
        told.extend(reservations.into_iter().map(|reservation| (sender, reservation)));
    };
    for next in NEXTS {
        for left in [0, 1, 2, 32, 63, 64] {
            let far = vec![0, 1, 64, next, 1 << 31, u32::MAX, next | 1 << 31, next | 1 << 28];
            add(next, left, far);
        }
    }
    for next in FULL - 66..=FULL {
        [0, 64].into_iter().for_each(|left| add(next, left, Vec::new()));
    }
    let mut random = Random::seeded(40);
    told.extend((0..200).map(|_| {
        let next = random.below(FULL as usize) as u32;
        let reserved = (next + random.below(65) as u32).min(FULL);
        let reservation = (next + random.below(80) as u32).saturating_sub(random.below(4) as u32);
        (Sender { link: LINK, next, reserved }, reservation)
    }));
    told
}

/// Each of these numbers with those beside it.
fn around(numbers: &[u32]) -> Vec<u32> {
    numbers.iter().flat_map(|number| [number.wrapping_sub(1), *number, number + 1]).collect()
}

/// States that arise and those just beside them; next numbers so high that 64 more would wrap.
pub fn states() -> Vec<Sender> {
    let mut states = Vec::new();
    let high = [FULL + 1, FULL + 64, 1 << 28, 1 << 31, u32::MAX - 64, u32::MAX - 1, u32::MAX];
    for next in NEXTS.into_iter().chain(high) {
        let ahead = [63, 64, 65, 66].map(|ahead| next.wrapping_add(ahead));
        let mut counts = vec![0, 1, FULL - 1, FULL, FULL + 1, u32::MAX];
        counts.extend([next.wrapping_sub(1), next, next.wrapping_add(1)]);
        counts.extend(ahead);
        states.extend(counts.iter().map(|&reserved| Sender { link: LINK, next, reserved }));
    }
    for (sapi, direction) in [(1, 0), (11, 1), (0, 0), (4, 1), (16, 0), (11, 2), (1, 255)] {
        let link = Link { sapi, direction, ..LINK };
        let counts = [(0, 0), (7, 8), (8, 7), (FULL, FULL)];
        states.extend(counts.map(|(next, reserved)| Sender { link, next, reserved }));
    }
    states
}

/// Of a receiver too is asked whether it can arise.
fn receivers() -> Vec<String> {
    let mut lines = Vec::new();
    for (sapi, direction) in [(3, 1), (11, 0), (4, 1), (3, 2), (255, 255)] {
        let link = Link { sapi, direction, ..LINK };
        for next in [0, 1, 2, 31, 32, 33, 600, FULL - 1, FULL, FULL + 1, u32::MAX] {
            let marks = [0, 1, 2, 3, 1 << 31, 1 << 31 | 1, u32::MAX >> 1, u32::MAX];
            lines.extend(marks.map(|marks| format!("receiver_can_arise {link} {next} {marks}")));
        }
    }
    lines
}

#[cfg(test)]
mod tests {
    use super::*;
    use crate::call;

    const MOST: u64 = 1 << 27;

    fn wide(number: u32) -> u64 {
        number.into()
    }

    /// In the words of document 02: above the reservation, or more than 64 below it.
    fn arises(sender: &Sender) -> bool {
        let (next, reserved) = (wide(sender.next), wide(sender.reserved));
        let service = [1, 2, 3, 5, 7, 8, 9, 11].contains(&sender.link.sapi);
        let link = service && sender.link.direction < 2;
        link && next <= MOST && reserved <= MOST && next <= reserved && reserved - next <= 64
    }

    #[test]
    fn a_sender_arises_between_its_reservation_and_64_below_it() {
        let mut counts = [0, 0];
        for sender in states() {
            let line = format!("sender_can_arise {sender}");
            let expected = u8::from(arises(&sender));
            assert_eq!(call::answer(line.as_bytes()), Some(expected.to_string()), "{line}");
            counts[usize::from(expected)] += 1;
        }
        assert!(counts.iter().all(|&count| count > 50), "{counts:?}");
    }

    #[test]
    fn a_reservation_is_taken_from_the_present_one_to_64_above_the_next_number() {
        let mut counts = [0, 0];
        for (sender, reservation) in told() {
            let lower = reservation < sender.reserved;
            let far = wide(reservation) > wide(sender.next) + 64 || wide(reservation) > MOST;
            let expected = if lower || far {
                format!("2 {sender}")
            } else {
                format!("0 {}", Sender { reserved: reservation, ..sender })
            };
            let line = reserve_line(sender, reservation);
            assert_eq!(call::answer(line.as_bytes()), Some(expected), "{line}");
            counts[usize::from(lower || far)] += 1;
        }
        assert!(counts.iter().all(|&count| count > 500), "{counts:?}");
    }
}
