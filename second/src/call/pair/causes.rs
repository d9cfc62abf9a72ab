//! f8 and f9 with every set of causes that can meet, so that the order of the refusals shows.

use super::given::Given;
use crate::cases::key_of;

pub fn lines() -> Vec<String> {
    [f8_causes(), f9_causes()].concat()
}

/// Nine bits, or too many where the set has SIZE; a place of a set for each cause of f8, in the order
/// in which they are named. BEARER and DIRECTION stay to be set.
fn caused(set: u32) -> (Given, usize) {
    let has = |place: u32| set >> place & 1 == 1;
    let bits: u32 = if has(2) { 20_001 } else { 9 };
    let octets = bits.div_ceil(8) as usize;
    let given = Given::of(octets - usize::from(has(3)), bits);
    let key = key_of(if has(0) { 8 } else { 16 });
    (Given { key, ..given }, octets - usize::from(has(4)))
}

/// 1, 2 in each way, 3, 5 and 4 in every set.
fn f8_causes() -> Vec<String> {
    let mut lines = Vec::new();
    for set in 0..32 {
        let (given, room) = caused(set);
        let ranges: &[(u8, u8)] =
            if set & 2 == 0 { &[(31, 1)] } else { &[(32, 1), (31, 2), (32, 2)] };
        for &(bearer, direction) in ranges {
            lines.push(Given { bearer, direction, ..given.clone() }.f8(room));
        }
    }
    lines
}

/// 1, 2, 3 and 5 in every set: the code, a check of the right code, or of 0 where there is none, and
/// of a wrong one.
fn f9_causes() -> Vec<String> {
    let mut lines = Vec::new();
    for set in 0..16 {
        let direction = if set & 2 == 0 { 1 } else { 2 };
        let given = Given { direction, ..caused(set).0 };
        lines.extend([given.f9(), given.check(given.code()), given.check(!given.code())]);
    }
    lines
}

#[cfg(test)]
mod tests {
    use super::*;
    use crate::call::pair::tests::answer_to;

    fn first_of(answer: &str) -> &str {
        answer.split(' ').next().unwrap()
    }

    #[test]
    fn the_first_cause_of_every_set_is_named() {
        // By its lowest place; a set with RANGE has three lines of f8.
        let named = |set: u32| ["1", "2", "3", "5", "4"].get(set.trailing_zeros() as usize);
        let sets = (0..32).flat_map(|set| vec![set; if set & 2 == 0 { 1 } else { 3 }]);
        let lines = f8_causes();
        assert_eq!(lines.len(), 64);
        for (set, line) in sets.zip(&lines) {
            assert_eq!(first_of(&answer_to(line)), *named(set).unwrap_or(&"0"), "{line}");
        }
        for (set, lines) in (0..16).zip(f9_causes().chunks(3)) {
            let answers = [0, 1, 2].map(|place| answer_to(&lines[place]));
            let refusal = *named(set).unwrap_or(&"0");
            assert_eq!(answers.each_ref().map(|answer| first_of(answer)), [refusal; 3]);
            assert_eq!(answers[0].ends_with(" 00000000"), set != 0);
            assert_eq!(answers[1].ends_with(" 1"), set == 0);
            assert!(answers[2].ends_with(" 0"));
        }
    }
}
