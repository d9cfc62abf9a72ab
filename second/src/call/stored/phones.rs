//! Random hosts of a sender whose plug is pulled at any moment, and a receiver that hears a part of
//! what they send. A host stores a form with a higher reservation, tells the sender that number, and
//! after a cut begins from the form that was stored last, or by a new opening where none ever was.
//! Beside these there are hosts that do it wrong, to show that it would be seen.

#[cfg(test)]
mod watched;

use super::{restore_sender_line, store_sender_line};
use crate::call::ends::{open_line, reserve_line, seal_line, LINK};
use crate::call::numbers::{arising, FULL};
use crate::link::ends::{open, seal, Answer};
use crate::link::numbering::narrow;
use crate::link::reserving::reserve;
use crate::link::services::assigned;
use crate::link::states::{open_sender, Link, Receiver, Sender};
use crate::link::stored::{restore_sender, store_sender};
use crate::random::Random;
use std::collections::VecDeque;

const RUNS: usize = 80;
const CARELESS_RUNS: usize = 24;
const STEPS: usize = 80;

pub fn lines() -> Vec<String> {
    let careless = CARELESS.into_iter().flat_map(|habit| runs(habit, CARELESS_RUNS));
    let runs = runs(Habit::Careful, RUNS).into_iter().chain(careless);
    let calls = runs.flatten().filter_map(|event| match event {
        Event::Call(line) => Some(line),
        Event::Stored | Event::Cut => None,
    });
    calls.chain([31, 32].into_iter().flat_map(skipped_and_lost)).collect()
}

/// What happens in a run.
enum Event {
    /// A call, as a line.
    Call(String),
    /// The form that was made last is stored, whole.
    Stored,
    /// The plug is pulled.
    Cut,
}

/// How a host goes about a reservation.
#[derive(Clone, Copy, PartialEq)]
enum Habit {
    Careful,
    /// It tells the sender a number before that is stored.
    TellsFirst,
    /// It stores two numbers, a lower one last, and tells the higher.
    TellsAnother,
    /// It begins from the form before the last.
    KeepsAnOldForm,
}

const CARELESS: [Habit; 3] = [Habit::TellsFirst, Habit::TellsAnother, Habit::KeepsAnOldForm];

/// A step on the way to a reservation.
#[derive(Clone, Copy)]
enum Act {
    Make(u32),
    Store,
    Tell(u32),
}

struct Run {
    habit: Habit,
    link: Link,
    /// None while the plug is pulled.
    sender: Option<Sender>,
    plan: VecDeque<Act>,
    made: Vec<u8>,
    stored: Vec<Vec<u8>>,
    air: Vec<Vec<u8>>,
    receiver: Receiver,
    events: Vec<Event>,
}

fn runs(habit: Habit, count: usize) -> Vec<Vec<Event>> {
    let mut random = Random::seeded(44 + habit as u64);
    (0..count).map(|_| Run::random(habit, &mut random).events).collect()
}

impl Run {
    /// A whole run, with frequent cuts or rare ones; a careless host has to be met by many.
    fn random(habit: Habit, random: &mut Random) -> Run {
        let mut run = Run::begun(habit, random);
        let careful = habit == Habit::Careful;
        let steps_to_a_cut = if careful { random.one_of(&[6, 12, 30]) } else { 9 };
        for _ in 0..STEPS {
            match run.sender {
                None => run.restart(),
                Some(_) if random.below(steps_to_a_cut) == 0 => run.cut(),
                Some(_) if random.below(4) == 0 => run.hear(random),
                Some(sender) => run.act(sender, random),
            }
        }
        run
    }

    /// Nothing was stored yet, or a form near one of the numbers' ends.
    fn begun(habit: Habit, random: &mut Random) -> Run {
        let key = std::array::from_fn(|_| random.octet());
        let (sapi, direction) = (random.one_of(&assigned()), random.below(2) as u8);
        let link = Link { key, iov: random.number() as u32, sapi, direction };
        let next = random.one_of(&[0, 0, 0, 500, 77_777, FULL - 200, FULL - 70, FULL - 3]);
        let stored = if next == 0 { None } else { Some(super::form_of(link, &[next])) };
        Run {
            habit,
            link,
            sender: None,
            plan: VecDeque::new(),
            made: Vec::new(),
            stored: stored.into_iter().collect(),
            air: Vec::new(),
            receiver: Receiver { link, next, marks: arising(next, 0) },
            events: Vec::new(),
        }
    }

    fn call(&mut self, line: String) {
        self.events.push(Event::Call(line));
    }

    fn cut(&mut self) {
        self.sender = None;
        self.plan.clear();
        self.events.push(Event::Cut);
    }

    fn restart(&mut self) {
        let back = usize::from(self.habit == Habit::KeepsAnOldForm && self.stored.len() > 1);
        let sender = match self.stored.iter().rev().nth(back).cloned() {
            Some(form) => {
                self.call(restore_sender_line(&form));
                restore_sender(&form).1
            }
            None => {
                let Link { key, iov, sapi, direction } = self.link;
                self.call(format!("open_sender {}", self.link));
                open_sender(&key, iov, sapi, direction).1
            }
        };
        self.sender = Some(sender);
    }

    /// The sender seals, or the host goes a step towards a reservation; the one may come between any
    /// two of the other.
    fn act(&mut self, sender: Sender, random: &mut Random) {
        if self.plan.is_empty() && random.below(3) == 0 {
            self.plan = plan(self.habit, sender, random);
        }
        let act = if random.below(3) == 0 { None } else { self.plan.pop_front() };
        match act {
            None => self.seal(sender, random),
            Some(Act::Make(reservation)) => {
                self.call(store_sender_line(sender, reservation, 29));
                self.made = vec![0; 29];
                assert_eq!(store_sender(sender, reservation, &mut self.made), 0);
            }
            Some(Act::Store) => {
                self.stored.push(self.made.clone());
                self.events.push(Event::Stored);
            }
            Some(Act::Tell(reservation)) => {
                self.call(reserve_line(sender, reservation));
                let (refusal, told) = reserve(sender, reservation);
                assert_eq!(refusal, 0);
                self.sender = Some(told);
            }
        }
    }

    fn seal(&mut self, sender: Sender, random: &mut Random) {
        let payload: Vec<u8> = (0..1 + random.below(3)).map(|_| random.octet()).collect();
        let room = payload.len() + 6;
        self.call(seal_line(sender, &payload, room));
        let mut frame = vec![0; room];
        let Answer { refusal, state, .. } = seal(sender, &payload, &mut frame);
        self.sender = Some(state);
        if refusal == 0 {
            self.air.push(frame);
        }
    }

    /// One of the last frames arrives, the first time or again.
    fn hear(&mut self, random: &mut Random) {
        let recent = self.air.len().min(5);
        if recent > 0 {
            let frame = self.air[self.air.len() - 1 - random.below(recent)].clone();
            self.call(open_line(self.receiver, &frame, 3));
            self.receiver = open(self.receiver, &frame, &mut [0; 3]).state;
        }
    }
}

/// A higher reservation and the steps towards it. It is often as far ahead as it may be; that of a
/// host that tells another number is near, so that the sender gets past the one that was stored.
fn plan(habit: Habit, sender: Sender, random: &mut Random) -> VecDeque<Act> {
    let reservations: Vec<u32> = sender.reservations().into_iter().map(narrow).collect();
    let highest = reservations[reservations.len() - 1];
    let reservation = match habit {
        Habit::TellsAnother => highest.min(sender.reserved + 3),
        _ => [highest, random.one_of(&reservations)][random.below(2)],
    };
    let stored = [Act::Make(reservation), Act::Store];
    let steps = match habit {
        Habit::Careful | Habit::KeepsAnOldForm => {
            [&stored as &[Act], &[Act::Tell(reservation)]].concat()
        }
        Habit::TellsFirst => [&[Act::Tell(reservation)], &stored as &[Act]].concat(),
        Habit::TellsAnother => {
            let twice = [Act::Make(sender.reserved), Act::Store, Act::Tell(reservation)];
            [&stored as &[Act], &twice].concat()
        }
    };
    steps.into()
}

/// The last frame heard is 600. Seven pulled plugs skip 64 numbers each, and so many frames are lost
/// after them: with 31 of these 479 numbers are missing, with 32 one more than can be told.
fn skipped_and_lost(lost: u32) -> Vec<String> {
    let receiver = Receiver { link: LINK, next: 601, marks: 1 };
    let mut sender = Sender { link: LINK, next: 601, reserved: 601 };
    let mut lines = Vec::new();
    for _ in 0..7 {
        let reservation = sender.next + 64;
        let form = super::form_of(LINK, &[reservation]);
        lines.push(store_sender_line(sender, reservation, 29));
        lines.push(restore_sender_line(&form));
        sender = Sender { next: reservation, reserved: reservation, ..sender };
    }
    lines.push(reserve_line(sender, sender.next + 64));
    sender.reserved += 64;
    for _ in 0..lost {
        lines.push(seal_line(sender, &[0x55], 7));
        sender.next += 1;
    }
    let mut frame = [0; 7];
    lines.push(seal_line(sender, &[0x55], 7));
    assert_eq!(seal(sender, &[0x55], &mut frame).refusal, 0);
    lines.push(open_line(receiver, &frame, 1));
    lines
}
