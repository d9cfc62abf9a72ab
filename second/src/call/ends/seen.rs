//! Demand 3, held against lines of `call` and their answers: each frame that arrives within the
//! receiver's window is handed out as it was sealed, the first time only.

use std::collections::{BTreeMap, BTreeSet};

#[derive(Default)]
pub struct Seen {
    /// Number and payload of each frame that was sealed.
    sealed: BTreeMap<String, (i64, String)>,
    pub arrived: BTreeSet<i64>,
    pub late: usize,
    pub repeated: usize,
}

impl Seen {
    /// Takes up the line of a seal or of an opening with its answer; no once a frame arrives outside
    /// the window, from where on nothing is demanded.
    pub fn takes(&mut self, line: &str, answer: &str) -> bool {
        let line: Vec<&str> = line.split(' ').collect();
        let answer: Vec<&str> = answer.split(' ').collect();
        match line[0] {
            "seal" => self.seals(&line, &answer),
            "open" => return self.arrives(&line, &answer),
            _ => {}
        }
        true
    }

    fn seals(&mut self, line: &[&str], answer: &[&str]) {
        if answer[0] != "0" {
            assert!(["4", "10", "13"].contains(&answer[0]), "{answer:?}");
            return;
        }
        let digits = 2 * answer[2].parse::<usize>().unwrap();
        let frame = answer[9][..digits].to_string();
        self.sealed.insert(frame, (answer[1].parse().unwrap(), line[7].to_string()));
    }

    /// Whether what is presented is refused or arrives within the window; if it arrives, its answer
    /// is the one of demand 3.
    fn arrives(&mut self, line: &[&str], answer: &[&str]) -> bool {
        let next: i64 = line[5].parse().unwrap();
        let room: usize = line[8].parse().unwrap();
        let sealed = self.sealed.get(line[7]);
        let arrival = sealed.filter(|(_, payload)| room >= payload.len() / 2);
        let Some((number, payload)) = arrival else {
            assert_ne!(answer[0], "0");
            return true;
        };
        if !(next - 32..=next + 479).contains(number) {
            return false;
        }
        assert_eq!(answer[1], number.to_string());
        if self.arrived.insert(*number) {
            assert_eq!(answer[0], "0");
            assert_eq!(answer[2], (payload.len() / 2).to_string());
            assert!(answer[9].starts_with(payload));
            self.late += usize::from(*number < next);
        } else {
            assert_eq!(answer[0], "11");
            self.repeated += 1;
        }
        let highest = self.arrived.last().expect("one has arrived");
        assert_eq!(answer[7], (highest + 1).to_string());
        true
    }
}
