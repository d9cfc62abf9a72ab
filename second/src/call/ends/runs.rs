//! Random runs of a sender and a receiver over a bad link: frames are lost, repeated and
//! reordered. A line carries the state that the last call of its end returned.

use super::{open_line, reserve_line, seal_line};
use crate::call::numbers::{arising, FULL};
use crate::link::ends::{open, seal, Answer};
use crate::link::reserving::reserve;
use crate::link::services::assigned;
use crate::link::states::{Link, Receiver, Sender};
use crate::random::Random;

const RUNS: usize = 240;
const STEPS: usize = 20;

/// A frame on the air, with what the sender knows of it.
struct Frame {
    octets: Vec<u8>,
    number: u32,
    payload: Vec<u8>,
}

struct Run {
    sender: Sender,
    receiver: Receiver,
    air: Vec<Frame>,
    lines: Vec<String>,
}

pub fn lines() -> Vec<String> {
    runs().concat()
}

fn runs() -> Vec<Vec<String>> {
    let mut random = Random::seeded(8);
    (0..RUNS).map(|_| Run::random(&mut random).lines).collect()
}

impl Run {
    /// A whole run. In one of four, frames arrive that lie outside the receiver's window.
    fn random(random: &mut Random) -> Run {
        let mut run = Run::begun(random);
        let wild = random.below(4) == 0;
        for _ in 0..STEPS {
            match random.below(10) {
                0..=3 => run.send(random),
                4 => run.lose(random),
                5 => run.present_refused(random),
                _ => run.arrive(wild, random),
            }
        }
        run
    }

    /// Ends newly opened, or well on their way.
    fn begun(random: &mut Random) -> Run {
        let key = std::array::from_fn(|_| random.octet());
        let (sapi, direction) = (random.one_of(&assigned()), random.below(2) as u8);
        let link = Link { key, iov: random.number() as u32, sapi, direction };
        let next = random.one_of(&[0, 0, 0, 0, 20, 500, 77_777, FULL - 300, FULL - 5]);
        let marks = arising(next, random.number() as u32);
        let sender = Sender { link, next, reserved: next };
        let receiver = Receiver { link, next, marks };
        Run { sender, receiver, air: Vec::new(), lines: Vec::new() }
    }

    /// The sender is told a reservation, as far ahead as it may be or less.
    fn tell(&mut self, random: &mut Random) {
        let reservation = self.sender.next + random.one_of(&[1, 2, 8, 63, 64]);
        self.lines.push(reserve_line(self.sender, reservation));
        self.sender = reserve(self.sender, reservation).1;
    }

    /// The sender seals a frame; at the end of its numbers it is refused, and where it waits for a
    /// reservation.
    fn send(&mut self, random: &mut Random) {
        if self.sender.next == self.sender.reserved && random.below(4) != 0 {
            self.tell(random);
        }
        let size = 1 + random.one_of(&[0, 3, 7, 8, 20]) + random.below(4);
        let payload: Vec<u8> = (0..size).map(|_| random.octet()).collect();
        let room = size + random.one_of(&[5, 6, 6, 6, 6, 7, 10]);
        let mut octets = vec![0; room];
        self.lines.push(seal_line(self.sender, &payload, room));
        let Answer { refusal, number, length, state } = seal(self.sender, &payload, &mut octets);
        self.sender = state;
        if refusal == 0 {
            octets.truncate(length);
            self.air.push(Frame { octets, number, payload });
        }
    }

    /// Frames are sealed and lost that no line shows.
    fn lose(&mut self, random: &mut Random) {
        let lost = random.one_of(&[1, 1, 1, 2, 2, 3, 5, 30, 31, 32, 33, 100, 450, 479]);
        self.sender.next = (self.sender.next + lost).min(FULL);
        self.sender.reserved = self.sender.reserved.max(self.sender.next);
    }

    /// A frame of the air arrives, the first time or again.
    fn arrive(&mut self, wild: bool, random: &mut Random) {
        let next = i64::from(self.receiver.next);
        let window = next - 32..=next + 479;
        let near = |frame: &&Frame| wild || window.contains(&frame.number.into());
        let frames: Vec<&Frame> = self.air.iter().filter(near).collect();
        let Some(newest) = frames.last() else { return };
        let any = random.one_of(&frames);
        let frame = random.one_of(&[newest, any, any]);
        let room = frame.payload.len() + random.below(3);
        self.present(&frame.octets.clone(), room);
    }

    /// Something is presented that the receiver refuses: no room, half a frame, another
    /// link's frame.
    fn present_refused(&mut self, random: &mut Random) {
        let Some(frame) = self.air.last() else { return };
        let (mut octets, mut room) = (frame.octets.clone(), frame.payload.len());
        match random.below(3) {
            0 => room -= 1,
            1 => octets.truncate(1 + random.below(octets.len() - 1)),
            _ => octets[3] ^= 0x10,
        }
        self.present(&octets, room);
    }

    fn present(&mut self, octets: &[u8], room: usize) {
        self.lines.push(open_line(self.receiver, octets, room));
        self.receiver = open(self.receiver, octets, &mut vec![0; room]).state;
    }
}

#[cfg(test)]
mod tests {
    use super::super::seen::Seen;
    use super::*;
    use crate::call;

    /// Follows a run as long as each frame arrives within the receiver's window.
    fn follow(run: &[String]) -> Seen {
        let mut seen = Seen::default();
        for line in run {
            let answer = call::answer(line.as_bytes()).expect("a line of a run is good");
            if !seen.takes(line, &answer) {
                break;
            }
        }
        seen
    }

    #[test]
    fn demand_3_holds_in_every_run_of_newly_opened_ends() {
        let new = |run: &&Vec<String>| run[0].split(' ').nth(5) == Some("0");
        let seen: Vec<Seen> = runs().iter().filter(new).map(|run| follow(run)).collect();
        let sum = |count: fn(&Seen) -> usize| seen.iter().map(count).sum::<usize>();
        let arrived = sum(|seen| seen.arrived.len());
        let (late, repeated) = (sum(|seen| seen.late), sum(|seen| seen.repeated));
        assert!(arrived > 300 && late > 50 && repeated > 50, "{arrived} {late} {repeated}");
    }
}
