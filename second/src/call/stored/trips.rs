//! There and back: ends stored, restored from that form, and used; what is restored is stored again.

use super::{restore_receiver_line, restore_sender_line, store_receiver_line, store_sender_line};
use crate::call::ends::{open_line, reserve_line, seal_line};
use crate::call::numbers::{arising, FULL};
use crate::link::ends::seal;
use crate::link::services::assigned;
use crate::link::states::{Link, Receiver, Sender};
use crate::link::stored::{store_receiver, store_sender};
use crate::random::Random;

const TRIPS: usize = 60;

pub fn lines() -> Vec<String> {
    [senders(), receivers()].concat()
}

fn random_link(random: &mut Random) -> Link {
    let key = std::array::from_fn(|_| random.octet());
    let (sapi, direction) = (random.one_of(&assigned()), random.below(2) as u8);
    Link { key, iov: random.number() as u32, sapi, direction }
}

/// A number from 0 to 2^27, often near an end.
fn random_next(random: &mut Random) -> u32 {
    let near = random.below(70) as u32;
    let any = random.below(FULL as usize) as u32;
    random.one_of(&[near, FULL - near, 512 + near, any, any])
}

/// A sender is stored with a reservation and restored. It seals nothing, is told another reservation
/// and seals a text, and what is left is stored.
fn senders() -> Vec<String> {
    let mut random = Random::seeded(41);
    let trip = |_| {
        let (link, next) = (random_link(&mut random), random_next(&mut random));
        let reserved = (next + random.below(65) as u32).min(FULL);
        let reservation = (next + 64).min(FULL).min(reserved + random.below(65) as u32);
        let sender = Sender { link, next, reserved };
        let mut form = [0; 29];
        store_sender(sender, reservation, &mut form);
        let back = Sender { link, next: reservation, reserved: reservation };
        let told = Sender { reserved: (reservation + 1).min(FULL), ..back };
        let after = Sender { next: told.reserved, ..told };
        [
            store_sender_line(sender, reservation, 29),
            restore_sender_line(&form),
            seal_line(back, &[0x55], 7),
            reserve_line(back, told.reserved),
            seal_line(told, &[0x55], 7),
            store_sender_line(after, after.reserved, 29),
        ]
    };
    (0..TRIPS).flat_map(trip).collect()
}

/// A receiver is stored and restored, opens a frame before and after, and is stored again.
fn receivers() -> Vec<String> {
    let mut random = Random::seeded(42);
    let trip = |_| {
        let (link, next) = (random_link(&mut random), random_next(&mut random));
        let marks = arising(next, random.number() as u32);
        let receiver = Receiver { link, next, marks };
        let mut form = [0; 33];
        store_receiver(receiver, &mut form);
        let number = (next + random.below(40) as u32).saturating_sub(32).min(FULL - 1);
        let mut frame = [0; 9];
        let sender = Sender { link, next: number, reserved: number + 1 };
        assert_eq!(seal(sender, &[1, 2, 3], &mut frame).refusal, 0);
        [
            open_line(receiver, &frame, 4),
            store_receiver_line(receiver, 33),
            restore_receiver_line(&form),
            open_line(receiver, &frame, 4),
            store_receiver_line(receiver, 36),
        ]
    };
    (0..TRIPS).flat_map(trip).collect()
}

#[cfg(test)]
mod tests {
    use super::*;
    use crate::call;
    use std::collections::BTreeSet;

    /// A line and its answer, each cut into fields.
    type Fields = (Vec<String>, Vec<String>);

    fn answered(line: &String) -> Fields {
        let fields = |text: &str| text.split(' ').map(str::to_string).collect();
        (fields(line), fields(&call::answer(line.as_bytes()).unwrap()))
    }

    /// The form that was stored is the one restored.
    fn form_goes_back((_, stored): &Fields, (restoring, restored): &Fields) {
        assert_eq!((&*stored[0], &*restored[0]), ("0", "0"));
        assert_eq!(stored[1], restoring[1]);
    }

    #[test]
    fn a_sender_comes_back_at_its_reservation_and_seals_that_number_first() {
        let lines = senders();
        let mut met = BTreeSet::new();
        for trip in lines.chunks(6) {
            let trip: Vec<Fields> = trip.iter().map(answered).collect();
            form_goes_back(&trip[0], &trip[1]);
            let reservation = trip[0].0[7].clone();
            let ([link, counts], back) = ([&trip[0].0[1..5], &trip[1].1[5..]], &trip[1].1[1..5]);
            assert_eq!(
                (back, counts),
                (link, [reservation.clone(), reservation.clone()].as_slice())
            );
            let end = reservation == FULL.to_string();
            assert_eq!(trip[2].1[0], if end { "10" } else { "13" });
            assert_eq!(trip[3].1[0], "0");
            if !end {
                assert_eq!(trip[4].1[..2], ["0".to_string(), reservation]);
            }
            assert_eq!(trip[5].1[0], "0");
            met.insert(end);
        }
        assert_eq!(met.len(), 2);
    }

    #[test]
    fn a_receiver_comes_back_as_it_was() {
        let lines = receivers();
        let mut met = BTreeSet::new();
        for trip in lines.chunks(5) {
            let trip: Vec<Fields> = trip.iter().map(answered).collect();
            form_goes_back(&trip[1], &trip[2]);
            assert_eq!(trip[2].1[1..], trip[1].0[1..7]);
            assert_eq!(trip[0].1, trip[3].1);
            assert_eq!(trip[4].1[1], format!("{}AAAAAA", trip[1].1[1]));
            met.insert(trip[0].1[0].clone());
        }
        assert_eq!(met.into_iter().collect::<Vec<_>>(), ["0", "11"]);
    }
}
