//! Random receivers that are stored and restored, from the moment before the cut and from older ones.
//! One restored from an older moment may hand out again what it accepted since: numbers accepted
//! before that store count as arrived, later ones do not.

use super::{restore_receiver_line, store_receiver_line};
use crate::call::ends::{open_line, seal_line};
use crate::call::numbers::{arising, FULL};
use crate::link::ends::{open, seal};
use crate::link::services::assigned;
use crate::link::states::{open_receiver, Link, Receiver, Sender};
use crate::link::stored::{restore_receiver, store_receiver};
use crate::random::Random;

const RUNS: usize = 30;
const STEPS: usize = 50;

pub fn lines() -> Vec<String> {
    MOMENTS.into_iter().flat_map(runs).flatten().collect()
}

/// From which form a receiver is restored.
#[derive(Clone, Copy, PartialEq)]
enum Moment {
    /// One that is stored after every frame.
    Latest,
    /// The last of forms that are stored now and then.
    Last,
    /// Any form that ever was stored.
    Any,
}

const MOMENTS: [Moment; 3] = [Moment::Latest, Moment::Last, Moment::Any];

struct Run {
    link: Link,
    number: u32,
    air: Vec<(u32, Vec<u8>)>,
    receiver: Receiver,
    stored: Vec<Vec<u8>>,
    lines: Vec<String>,
}

fn runs(moment: Moment) -> Vec<Vec<String>> {
    let mut random = Random::seeded(50 + moment as u64);
    (0..RUNS).map(|_| Run::random(moment, &mut random).lines).collect()
}

impl Run {
    fn random(moment: Moment, random: &mut Random) -> Run {
        let mut run = Run::begun(random);
        for _ in 0..STEPS {
            match random.below(12) {
                0..=3 => run.send(random),
                4 => run.restart(moment, random),
                5 | 6 if moment != Moment::Latest => run.store(),
                _ => run.hear(random),
            }
            if moment == Moment::Latest {
                run.store();
            }
        }
        run
    }

    /// Newly opened, or stored well on its way.
    fn begun(random: &mut Random) -> Run {
        let key = std::array::from_fn(|_| random.octet());
        let (sapi, direction) = (random.one_of(&assigned()), random.below(2) as u8);
        let link = Link { key, iov: random.number() as u32, sapi, direction };
        let next = random.one_of(&[0, 0, 0, 20, 500, 77_777, FULL - 60]);
        let receiver = Receiver { link, next, marks: arising(next, random.number() as u32) };
        let (air, stored, lines) = (Vec::new(), Vec::new(), Vec::new());
        let mut run = Run { link, number: next, air, receiver, stored, lines };
        if next == 0 {
            run.lines.push(format!("open_receiver {link}"));
        } else {
            run.store();
        }
        run
    }

    /// A frame is sealed, and now and then some before it are lost.
    fn send(&mut self, random: &mut Random) {
        let number = self.number + random.one_of(&[0, 0, 0, 0, 1, 2, 5, 40]);
        if number >= FULL {
            return;
        }
        let payload: Vec<u8> = (0..1 + random.below(3)).map(|_| random.octet()).collect();
        let sender = Sender { link: self.link, next: number, reserved: number + 1 };
        let mut frame = vec![0; payload.len() + 6];
        self.lines.push(seal_line(sender, &payload, frame.len()));
        assert_eq!(seal(sender, &payload, &mut frame).refusal, 0);
        self.air.push((number, frame));
        self.number = number + 1;
    }

    /// A frame within the window arrives, the first time or again.
    fn hear(&mut self, random: &mut Random) {
        let next = i64::from(self.receiver.next);
        let near =
            |(number, _): &&(u32, Vec<u8>)| (next - 32..=next + 479).contains(&i64::from(*number));
        let frames: Vec<&(u32, Vec<u8>)> = self.air.iter().filter(near).collect();
        if frames.is_empty() {
            return;
        }
        let (_, frame) = random.one_of(&frames).clone();
        self.lines.push(open_line(self.receiver, &frame, 3));
        self.receiver = open(self.receiver, &frame, &mut [0; 3]).state;
    }

    fn store(&mut self) {
        let mut form = vec![0; 33];
        self.lines.push(store_receiver_line(self.receiver, 33));
        assert_eq!(store_receiver(self.receiver, &mut form), 0);
        self.stored.push(form);
    }

    /// The plug is pulled, and the receiver begins anew.
    fn restart(&mut self, moment: Moment, random: &mut Random) {
        let form = match moment {
            Moment::Latest | Moment::Last => self.stored.last(),
            Moment::Any => self.stored.get(random.below(self.stored.len() + 1)),
        };
        let Some(form) = form.or(self.stored.last()).cloned() else {
            let Link { key, iov, sapi, direction } = self.link;
            self.lines.push(format!("open_receiver {}", self.link));
            self.receiver = open_receiver(&key, iov, sapi, direction).1;
            return;
        };
        self.lines.push(restore_receiver_line(&form));
        self.receiver = restore_receiver(&form).1;
    }
}

#[cfg(test)]
mod tests {
    use super::*;
    use crate::call;
    use crate::call::ends::seen::Seen;
    use std::collections::{BTreeMap, BTreeSet};

    /// The whole history of a receiver, from its calls and their answers alone.
    #[derive(Default)]
    struct Watched {
        state: String,
        /// What had arrived when a form was made.
        forms: BTreeMap<String, BTreeSet<i64>>,
        seen: Seen,
        /// Every number that was ever handed out.
        ever: BTreeSet<i64>,
        handed_out_again: usize,
        restarts: usize,
        /// Restarts that brought back another state than the one before the cut.
        older: usize,
    }

    impl Watched {
        fn call(&mut self, line: &str) {
            let answer = call::answer(line.as_bytes()).expect("a line of a run is good");
            let (name, fields) = line.split_once(' ').unwrap();
            let (refusal, rest) = answer.split_once(' ').unwrap();
            match name {
                "open" | "store_receiver" if !self.state.is_empty() => {
                    assert!(fields.starts_with(&format!("{} ", self.state)), "{line}");
                }
                _ => {}
            }
            match (name, refusal) {
                ("seal", "0") => assert!(self.seen.takes(line, &answer)),
                ("open", "0" | "11") => self.hears(line, &answer),
                ("store_receiver", "0") => {
                    self.state = fields.rsplit_once(' ').unwrap().0.to_string();
                    self.begins_with_marks();
                    self.forms.insert(rest.to_string(), self.seen.arrived.clone());
                }
                ("restore_receiver", "0") => {
                    self.seen.arrived = self.forms[fields].clone();
                    self.restarted(rest);
                }
                ("open_receiver", "0") => {
                    assert!(self.forms.is_empty());
                    self.seen.arrived.clear();
                    self.restarted(rest);
                }
                _ => panic!("{line}: {answer}"),
            }
        }

        /// A run that begins on its way has the numbers of its marks behind it.
        fn begins_with_marks(&mut self) {
            let fields: Vec<&str> = self.state.split(' ').collect();
            let (v, marks): (i64, u32) = (fields[4].parse().unwrap(), fields[5].parse().unwrap());
            if self.forms.is_empty() && self.restarts == 0 {
                let marked = (0..32).filter(|place| marks >> place & 1 == 1);
                self.seen.arrived.extend(marked.map(|place| v - 1 - place));
            }
        }

        fn hears(&mut self, line: &str, answer: &str) {
            assert!(self.seen.takes(line, answer), "{line}");
            let fields: Vec<&str> = answer.split(' ').collect();
            self.state = fields[3..9].join(" ");
            let new = fields[0] == "0" && !self.ever.insert(fields[1].parse().unwrap());
            self.handed_out_again += usize::from(new);
        }

        fn restarted(&mut self, state: &str) {
            self.older += usize::from(!self.state.is_empty() && self.state != state);
            self.state = state.to_string();
            self.restarts += 1;
        }
    }

    /// How often all runs began anew, how often from another state, and what they handed out again.
    fn sums(moment: Moment) -> (usize, usize, usize) {
        let mut sums = (0, 0, 0);
        for run in runs(moment) {
            let mut watched = Watched::default();
            run.iter().for_each(|line| watched.call(line));
            sums.0 += watched.restarts;
            sums.1 += watched.older;
            sums.2 += watched.handed_out_again;
        }
        sums
    }

    #[test]
    fn restored_as_it_was_before_the_cut_nothing_is_handed_out_twice() {
        let (restarts, older, again) = sums(Moment::Latest);
        assert!(restarts > 100 && older == 0 && again == 0, "{restarts} {older} {again}");
    }

    #[test]
    fn restored_from_an_older_moment_demand_3_begins_anew_there() {
        for moment in [Moment::Last, Moment::Any] {
            let (restarts, older, again) = sums(moment);
            assert!(restarts > 100 && older > 40 && again > 20, "{restarts} {older} {again}");
        }
    }
}
