//! Stored forms damaged: each octet changed, left out and put in, every length from 0 to 40 with the
//! length field right and wrong, every service and direction, and states that cannot arise.

use super::{form_of, restore_lines, restore_receiver_line, restore_sender_line};
use crate::call::ends::LINK;
use crate::call::numbers::{arising, FULL};
use crate::link::states::Link;
use crate::random::Random;

/// The words of a sender and of a receiver to be damaged.
const SENDER: [u32; 1] = [0x0012_3456];
const RECEIVER: [u32; 2] = [0x0012_3456, 0x89AB_CDEF];

pub fn lines() -> Vec<String> {
    let forms = [changed(), left_out(), lengths()].concat();
    let either = forms.iter().flat_map(|form| restore_lines(form));
    either.chain(links()).chain(reservations()).chain(numberings()).chain(noise()).collect()
}

fn good_forms() -> [Vec<u8>; 2] {
    [form_of(LINK, &SENDER), form_of(LINK, &RECEIVER)]
}

/// The form of either end with each octet changed in turn: one bit of it, all of them, and to 0, 255
/// and its neighbours.
fn changed() -> Vec<Vec<u8>> {
    let mut forms = Vec::new();
    for form in good_forms() {
        for place in 0..form.len() {
            for octet in others(form[place]) {
                let mut changed = form.clone();
                changed[place] = octet;
                forms.push(changed);
            }
        }
    }
    forms
}

fn others(octet: u8) -> Vec<u8> {
    let mut others: Vec<u8> = (0..8).map(|place| octet ^ 1 << place).collect();
    others.extend([!octet, 0, u8::MAX, octet.wrapping_add(1), octet.wrapping_sub(1)]);
    others.sort();
    others.dedup();
    others.retain(|&other| other != octet);
    others
}

/// Each octet left out, and put in a second time; one form after the other.
fn left_out() -> Vec<Vec<u8>> {
    let mut forms = Vec::new();
    for form in good_forms() {
        for place in 0..form.len() {
            let (before, after) = form.split_at(place);
            forms.push([before, &after[1..]].concat());
            forms.push([before, &after[..1], after].concat());
        }
        forms.push([form.as_slice(), &form].concat());
    }
    let [sender, receiver] = good_forms();
    forms.push([sender.as_slice(), &receiver].concat());
    forms
}

/// So many octets of a long form, under each length field that is right for something, and some that
/// would be if one octet of it were not read, or the two exchanged.
fn lengths() -> Vec<Vec<u8>> {
    let long = [form_of(LINK, &RECEIVER), vec![1; 8]].concat();
    let mut forms = Vec::new();
    for length in 0..=40usize {
        let mut fields = vec![0, 23, 26, 27, 28, 29, 30, 31, 32, 33, 256 + 27, 256 + 31];
        fields.extend([27 << 8, 31 << 8, u16::MAX, length as u16, (length as u16).wrapping_sub(2)]);
        fields.sort();
        fields.dedup();
        for field in fields {
            let mut form = long.clone();
            form[..2].copy_from_slice(&field.to_be_bytes());
            form.truncate(length);
            forms.push(form);
        }
    }
    forms
}

/// Every service number that an octet can hold, with directions that exist and that do not.
fn links() -> impl Iterator<Item = String> {
    let links = (0..=u8::MAX)
        .flat_map(|sapi| [0, 1, 2, 3, 255].map(|direction| Link { sapi, direction, ..LINK }));
    links.flat_map(|link| {
        [
            restore_sender_line(&form_of(link, &SENDER)),
            restore_receiver_line(&form_of(link, &RECEIVER)),
        ]
    })
}

/// Reserved numbers at both ends of what they may be and with each bit alone.
fn reservations() -> impl Iterator<Item = String> {
    let mut words = vec![0, 1, 63, 64, 65, FULL - 65, FULL - 64, FULL - 1, FULL, FULL + 1];
    words.extend([FULL + 64, 2 * FULL, u32::MAX - 64, u32::MAX - 1, u32::MAX]);
    words.extend((0..32).map(|place| 1 << place));
    words.into_iter().map(|word| restore_sender_line(&form_of(LINK, &[word])))
}

/// V and marks on both sides of each cause of 12, each mark alone and beside that of V-1.
fn numberings() -> impl Iterator<Item = String> {
    let mut states = Vec::new();
    let high = [FULL - 1, FULL, FULL + 1, FULL + 32, 1 << 28, 1 << 31, u32::MAX];
    for v in (0..=34).chain([511, 512, 600]).chain(high) {
        let mut marks = vec![0, u32::MAX, u32::MAX - 1, 0x5555_5555, 0xAAAA_AAAA];
        marks.extend((0..32).flat_map(|place| [1 << place, 1 | 1 << place]));
        marks.extend([arising(v, u32::MAX), arising(v, 0x6666_6666)]);
        states.extend(marks.into_iter().map(|marks| [v, marks]));
    }
    states.into_iter().map(|words| restore_receiver_line(&form_of(LINK, &words)))
}

/// Any octets at all, of the length of a form and near it; now and then behind a right beginning.
fn noise() -> Vec<String> {
    let mut random = Random::seeded(43);
    let mut lines = Vec::new();
    for _ in 0..400 {
        let length = random.one_of(&[28usize, 29, 29, 30, 32, 33, 33, 34]);
        let mut octets: Vec<u8> = (0..length).map(|_| random.octet()).collect();
        if random.below(4) != 0 {
            let version = random.one_of(&[0, 1, 1, 1, 1, 2]);
            octets[..3].copy_from_slice(&[0, length as u8 - 2, version]);
        }
        if random.below(4) != 0 {
            let (sapi, direction) = (random.one_of(&[1, 3, 4, 11]), random.below(2) as u8);
            octets[23..25].copy_from_slice(&[sapi, direction]);
            octets[25] %= 10;
        }
        lines.extend(restore_lines(&octets));
    }
    lines
}

#[cfg(test)]
mod tests {
    use super::*;
    use crate::call;
    use crate::call::form::shown;

    fn refusal(line: &str) -> u8 {
        let answer = call::answer(line.as_bytes()).unwrap();
        let refusal = answer.split(' ').next().unwrap().parse().unwrap();
        let nothing = format!("{refusal} {} 0 0 2 0 0", "00".repeat(16));
        assert_eq!(refusal == 0, answer != nothing, "{line}");
        refusal
    }

    /// What an octet of a form is worth, by its place alone.
    fn refusal_of(place: usize, octet: u8) -> u8 {
        let service = [1, 2, 3, 5, 7, 8, 9, 11].contains(&octet);
        match place {
            0..=1 => 5,
            2 => 6,
            23 if !service => 12,
            24 if octet > 1 => 12,
            // Above 2^27, which is 8 in the highest octet with zeros below; those of the form are not.
            25 if octet > 7 => 12,
            // The mark of V-1.
            32 if octet & 1 == 0 => 12,
            _ => 0,
        }
    }

    #[test]
    fn each_damaged_octet_is_refused_or_shows_in_the_state() {
        let [sender, receiver] = good_forms();
        let of_good = restore_lines(&sender)[0].clone();
        let good = call::answer(of_good.as_bytes());
        let mut met = [0; 13];
        for form in changed() {
            let (place, octet, own) = if form.len() == sender.len() {
                let place = (0..29).find(|&place| form[place] != sender[place]).unwrap();
                (place, form[place], 0)
            } else {
                let place = (0..33).find(|&place| form[place] != receiver[place]).unwrap();
                (place, form[place], 1)
            };
            let lines = restore_lines(&form);
            assert_eq!(refusal(&lines[1 - own]), 5);
            let expected = refusal_of(place, octet);
            assert_eq!(refusal(&lines[own]), expected, "{}", shown(&form));
            assert_ne!(call::answer(lines[own].as_bytes()), good);
            met[usize::from(expected)] += 1;
        }
        assert!([0, 5, 6, 12].iter().all(|&refusal| met[refusal] > 20), "{met:?}");
    }

    #[test]
    fn of_all_lengths_two_are_right_and_each_under_one_field() {
        let mut right = Vec::new();
        for form in [lengths(), left_out()].concat() {
            for (line, end) in restore_lines(&form).iter().zip(["sender", "receiver"]) {
                match refusal(line) {
                    0 => right.push((end, form.len(), form[0], form[1])),
                    refusal => assert_eq!(refusal, 5, "{line}"),
                }
            }
        }
        assert_eq!(right, [("sender", 29, 0, 27), ("receiver", 33, 0, 31)]);
    }

    #[test]
    fn a_reserved_number_up_to_2_27_is_taken() {
        let mut counts = [0, 0];
        for line in reservations() {
            let digits = &line[line.len() - 8..];
            let above = u32::from_str_radix(digits, 16).unwrap() > 0x0800_0000;
            assert_eq!(refusal(&line), if above { 12 } else { 0 }, "{line}");
            counts[usize::from(above)] += 1;
        }
        assert!(counts.iter().all(|&count| count > 7), "{counts:?}");
    }

    #[test]
    fn marks_that_cannot_be_are_refused() {
        let mut counts = [0, 0];
        for line in numberings() {
            let word = |end: usize| {
                let digits = &line[line.len() - 8 * end..][..8];
                u64::from_str_radix(digits, 16).unwrap()
            };
            let (v, marks) = (word(2), word(1));
            let lowest = marks % 2 == 1;
            let room = v >= 32 || marks < 1 << v;
            let arises = v <= 1 << 27 && (lowest || v == 0) && room;
            assert_eq!(refusal(&line), if arises { 0 } else { 12 }, "{line}");
            counts[usize::from(arises)] += 1;
        }
        assert!(counts.iter().all(|&count| count > 300), "{counts:?}");
    }

    #[test]
    fn the_eight_services_and_two_directions_are_taken() {
        let taken = links().filter(|line| refusal(line) == 0).count();
        assert_eq!(taken, 2 * 8 * 2);
    }

    #[test]
    fn noise_meets_every_refusal() {
        let mut met = [0; 13];
        noise().iter().for_each(|line| met[usize::from(refusal(line))] += 1);
        assert!([0, 5, 6, 12].iter().all(|&refusal| met[refusal] > 10), "{met:?}");
    }
}
