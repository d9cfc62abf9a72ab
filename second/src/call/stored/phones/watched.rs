//! The hosts held against document 02, item 4: every number that one ever sealed is kept.

use super::{runs, skipped_and_lost, Event, Habit, CARELESS, CARELESS_RUNS, RUNS};
use crate::call;
use crate::call::ends::seen::Seen;
use crate::call::numbers::FULL;
use std::collections::BTreeSet;

/// The whole history of a host, from its calls and their answers alone.
#[derive(Default)]
struct Watched {
    /// The sender, as the last answer has it; none while the plug is pulled.
    state: Option<String>,
    made: String,
    /// The form on which a restart is to go.
    stored: Option<String>,
    /// Every number that was ever sealed.
    sealed: BTreeSet<i64>,
    /// Whether a number was sealed that is not above all before it.
    fell: bool,
    repeated: usize,
    /// The sender's next number in the last answer.
    next: i64,
    /// How many numbers each restart skipped.
    skipped: Vec<i64>,
    openings: usize,
    /// The moments at which the plug was pulled, by the call or the store before.
    cuts: BTreeSet<String>,
    last: String,
    seen: Seen,
    unheard: bool,
}

fn watched(run: &[Event], habit: Habit) -> Watched {
    let mut watched = Watched::default();
    for event in run {
        match event {
            Event::Call(line) => watched.call(line, habit),
            Event::Stored => {
                watched.stored = Some(watched.made.clone());
                watched.last = "stored".to_string();
            }
            Event::Cut => {
                watched.state = None;
                watched.cuts.insert(watched.last.clone());
            }
        }
    }
    watched
}

impl Watched {
    fn call(&mut self, line: &str, habit: Habit) {
        let answer = call::answer(line.as_bytes()).expect("a line of a run is good");
        let (name, fields) = line.split_once(' ').unwrap();
        let (refusal, rest) = answer.split_once(' ').unwrap();
        match name {
            "open" => {
                self.unheard = self.unheard || !self.seen.takes(line, &answer);
                return;
            }
            "open_sender" => {
                assert_eq!((&self.stored, refusal), (&None, "0"));
                self.openings += 1;
                self.restarts(rest);
            }
            "restore_sender" => {
                assert_eq!(refusal, "0");
                // The first form of a run was stored before it.
                let last = self.stored.get_or_insert(fields.to_string());
                assert!(last == fields || habit == Habit::KeepsAnOldForm, "{line}");
                self.restarts(rest);
            }
            _ => {
                let state = self.state.as_ref().expect("the plug is in");
                assert!(fields.starts_with(&format!("{state} ")), "{line}");
                self.acts(name, refusal, rest);
            }
        }
        if name == "seal" {
            self.seen.takes(line, &answer);
        }
        self.last = name.to_string();
    }

    fn acts(&mut self, name: &str, refusal: &str, rest: &str) {
        let fields: Vec<&str> = rest.split(' ').collect();
        match (name, refusal) {
            ("store_sender", "0") => self.made = rest.to_string(),
            ("reserve", "0") => self.state = Some(rest.to_string()),
            ("seal", "0") => {
                let number = fields[0].parse().unwrap();
                self.fell = self.fell || self.sealed.last() >= Some(&number);
                self.repeated += usize::from(!self.sealed.insert(number));
                self.state = Some(fields[2..8].join(" "));
                self.next = number + 1;
            }
            ("seal", "10" | "13") => {}
            _ => panic!("{name} was refused with {refusal}"),
        }
    }

    fn restarts(&mut self, state: &str) {
        assert_eq!(self.state, None);
        let next: i64 = state.split(' ').nth(4).unwrap().parse().unwrap();
        // Of the first start nothing is known.
        if self.last.is_empty() {
            self.next = next;
        }
        self.skipped.push(next - self.next);
        self.state = Some(state.to_string());
        self.next = next;
    }
}

fn all_watched(habit: Habit, count: usize) -> Vec<Watched> {
    runs(habit, count).iter().map(|run| watched(run, habit)).collect()
}

#[test]
fn after_a_cut_at_any_moment_no_number_is_sealed_again_and_at_most_64_are_skipped() {
    let all = all_watched(Habit::Careful, RUNS);
    let (mut cuts, mut skipped, mut sealed) = (BTreeSet::new(), BTreeSet::<i64>::new(), 0);
    for watched in &all {
        assert!(watched.repeated == 0 && !watched.fell);
        assert!(watched.skipped.iter().all(|skipped| (0..=64).contains(skipped)));
        cuts.extend(&watched.cuts);
        skipped.extend(&watched.skipped);
        sealed += watched.sealed.len();
    }
    let moments = ["open_sender", "reserve", "restore_sender", "seal", "store_sender", "stored"];
    assert_eq!(cuts.into_iter().collect::<Vec<_>>(), moments);
    assert!(skipped.contains(&0) && skipped.contains(&64) && skipped.len() > 30);
    let ended = |watched: &&Watched| watched.sealed.contains(&i64::from(FULL - 1));
    let ends = all.iter().filter(ended).count();
    let openings = all.iter().filter(|watched| watched.openings > 1).count();
    assert!(sealed > 600 && ends > 5 && openings > 5, "{sealed} {ends} {openings}");
}

#[test]
fn a_receiver_that_hears_a_part_reads_it_rightly_over_the_skipped_numbers() {
    let heard = all_watched(Habit::Careful, RUNS).into_iter().filter(|run| !run.unheard);
    let arrived: Vec<usize> = heard.map(|watched| watched.seen.arrived.len()).collect();
    assert!(arrived.len() > RUNS / 2 && arrived.iter().sum::<usize>() > 300, "{arrived:?}");
}

#[test]
fn each_careless_host_seals_a_number_twice_and_is_seen() {
    for habit in CARELESS {
        let all = all_watched(habit, CARELESS_RUNS);
        let repeats = all.iter().filter(|watched| watched.repeated > 0).count();
        assert!(repeats > 2, "{repeats} of habit {}", habit as u8);
    }
}

#[test]
fn skipped_numbers_are_lost_frames_and_479_may_be_missing() {
    let heard = |lost| {
        let lines = skipped_and_lost(lost);
        let answers: Vec<String> =
            lines.iter().map(|line| call::answer(line.as_bytes()).unwrap()).collect();
        assert!(answers[..answers.len() - 1].iter().all(|answer| answer.starts_with("0 ")));
        let restarts = lines.iter().filter(|line| line.starts_with("restore")).count();
        assert_eq!((restarts, lines.len()), (7, 14 + 1 + lost as usize + 2));
        answers[answers.len() - 1].clone()
    };
    assert!(heard(31).starts_with("0 1080 1 ") && heard(31).ends_with(" 1081 1 55"));
    // Read as 569, which is late, and so as noise.
    assert!(heard(32).starts_with("0 569 1 ") && !heard(32).ends_with(" 55"));
}
