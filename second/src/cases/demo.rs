//! The test input for the program `demo`: the example scripts, every form of a line, every printable
//! octet, a random run with loss, repeats and reordering, and runs in which plugs are pulled. And random
//! scripts, each for a bench of its own, since what is stored at the start is so only once.

use super::{ended, spoiled};
use crate::random::Random;

const REFUSALS: &str = include_str!("../../../demo/refusals.txt");
const ROLLOVER: &str = include_str!("../../../demo/rollover.txt");
const PLUG: &str = include_str!("../../../demo/plug.txt");

/// Lines between bars, the first of them empty: commands cut short, in other letters, with other
/// spaces, with numbers and places that are none.
const FORMS: &str = "| |#|# remark|##| # no remark|pass|Pass a|PASS a|pass  a|pass a |  pass a|passa\
    |pass\t|lose|lose |lose 1|lose 01|lose 001|lose 0001|lose 000|lose 999|lose 1000|lose 9999999999\
    |lose 12345678901|lose -1|lose +1|lose 1 |lose  1|lose 1a|lose 0x1|lose a|keep|keep |keep 1|keep 1 \
    |keep 1a|keep 1aa|keep a a|keep / a|keep : a|keep 10 a|keep  a|keep 1  a|give|give |give 1|give 1 \
    |give 11|give a|give /|give :|give  1|noise|noise |noise 0|noise 00|noise 000|noise 0g|noise 00 00\
    |noise aBcDeF|noise 0005013000FF00|say nothing|?|-|ok";

/// The same of the lines about the plug: first those that leave the phone's reservation to the bench.
const PLUG_FORMS: &str = "store|store |store phone|store phone |store phone a|store phone 1a\
    |store phone 1 |store phone  1|store phone -1|store phone +1|store phone 0001|store phone 1000\
    |store phone 9999999999|store phone :|store phone /|store phone1|store  phone 1|Store phone 1\
    |store box|store box 1|store cell |store cell 1|store cells|store Cell|store  cell|store cel\
    |tell|tell |tell cell|tell phone |tell phones|tell phone 1|tell  phone|Tell phone|tell phon\
    |cut|cut |cut box|cut phone |cut phones|cut cell |cut cells|cut 1|cut  phone|CUT phone|cut ph\
    |restart|restart |restart box|restart phone |restart cell |restart cells|restart  cell\
    |restart 1|Restart cell|restart c|stor phone 1|cutphone|tellphone|restartphone|storecell\
    |pass still ahead|store cell|cut cell|pass no cell|store cell|restart cell|pass a cell\
    |cut phone|pass no phone|keep 4 no phone|lose 3|give 4|restart phone|pass a phone\
    |store phone 0|pass by hand|store phone 1|tell phone|pass one|pass two|store phone 01|store phone 001\
    |tell phone|store phone 64|store phone 65|tell phone|store phone 63|store phone 999|lose 70|tell phone\
    |store phone 000|tell phone|pass nothing left|cut phone|store phone 1|tell phone|cut phone|pass\
    |restart phone|restart phone|pass nothing left";

pub fn input() -> String {
    let scripts = [REFUSALS, ROLLOVER].join("");
    let mut lines: Vec<String> = scripts.lines().map(String::from).collect();
    lines.extend(FORMS.split('|').map(String::from));
    lines.extend(sizes());
    lines.extend(octets());
    lines.extend(run());
    lines.extend(plugs(&mut Random::seeded(28), 400, false));
    lines.extend(PLUG_FORMS.split('|').map(String::from));
    lines.extend(PLUG.lines().map(String::from));
    lines.extend(plugs(&mut Random::seeded(29), 400, true));
    ended(lines)
}

/// A random script, another one for each number: for a while the reservation is left to the bench.
pub fn script(number: u64) -> String {
    let mut random = Random::seeded(1_000 + number);
    let before = random.one_of(&[0, 0, 3, 20]);
    ended([plugs(&mut random, before, false), plugs(&mut random, 60, true)].concat())
}

/// Lines up to the longest and beyond.
fn sizes() -> impl Iterator<Item = String> {
    (38..=44).flat_map(|size| {
        let text = "z".repeat(size);
        [format!("pass {text}"), format!("keep 5 {text}"), "give 5".into(), format!("#{text}abc")]
    })
}

/// Every octet below 128 but the line end, as a text and before a command.
fn octets() -> impl Iterator<Item = String> {
    (0..128).map(char::from).filter(|&octet| octet != '\n').map(|octet| format!("pass <{octet}>"))
}

/// A run that loses, repeats and reorders; now and then a stretch that is too long.
fn run() -> Vec<String> {
    let mut random = Random::seeded(27);
    (0..600)
        .map(|step| {
            let place = random.below(10);
            match random.below(20) {
                0..=5 => format!("pass step {step}"),
                6..=10 => format!("keep {place} step {step}, place {place}"),
                11..=15 => format!("give {place}"),
                16 => format!("lose {}", 1 + random.below(40)),
                17 => format!("lose {}", 440 + random.below(60)),
                18 => format!("noise {}", random.digits(21)),
                _ => spoiled("keep 3 nearly", &mut random),
            }
        })
        .collect()
}

/// A run in which plugs are pulled and ends restart; by hand it also stores the phone and tells it.
fn plugs(random: &mut Random, steps: usize, by_hand: bool) -> Vec<String> {
    (0..steps)
        .map(|step| {
            let place = random.below(10);
            match random.below(if by_hand { 26 } else { 16 }) {
                0..=3 => format!("pass step {step}"),
                4 | 5 => format!("keep {place} step {step}"),
                6..=8 => format!("give {place}"),
                9 => format!("lose {}", 1 + random.below(70)),
                10 => random.one_of(&["cut phone", "cut cell"]).to_string(),
                11 | 12 => "restart phone".to_string(),
                13 => "restart cell".to_string(),
                14 => "store cell".to_string(),
                15 => spoiled(random.one_of(&["restart cell", "cut phone"]), random),
                16..=19 => format!("store phone {}", random.one_of(&[0, 1, 2, 8, 63, 64, 65, 70])),
                20..=24 => "tell phone".to_string(),
                _ => spoiled("store phone 32", random),
            }
        })
        .collect()
}

#[cfg(test)]
mod tests {
    use super::*;
    use crate::demo;

    /// What a column shows in every line that a script is answered with.
    fn column(script: &str, place: usize) -> Vec<String> {
        let output = demo::output(script.as_bytes());
        let output = String::from_utf8(output).expect("all that is shown is ASCII");
        let shown =
            |line: &str| line.get(11 * place..11 * place + 11).map(|text| text.trim().into());
        output.lines().filter(|line| !line.starts_with('#')).filter_map(shown).collect()
    }

    #[test]
    fn every_answer_that_a_script_can_have_is_met() {
        let (phones, answers) = (column(&input(), 0), column(&input(), 4));
        for answer in ["ok", "5 length", "6 version", "7 spare", "8 other", "9 start", "11 repeat"]
        {
            assert!(answers.iter().any(|shown| shown == answer), "{answer}");
        }
        assert!(answers.iter().any(|shown| shown == "12 state"));
        for phone in ["ok", "2 range", "3 size", "4 room", "12 state", "13 reserve", "?"] {
            assert!(phones.iter().any(|shown| shown == phone), "{phone}");
        }
    }

    #[test]
    fn every_line_about_the_plug_is_met() {
        let boxes = column(&input(), 2);
        for did in ["stored", "stored 0", "stored 64", "stored 65", "stored 999"] {
            assert!(boxes.iter().any(|shown| shown == did), "{did}");
        }
        for did in ["told", "cut phone", "cut cell", "restarted", "count", "command"] {
            assert!(boxes.iter().any(|shown| shown == did), "{did}");
        }
    }

    #[test]
    fn whatever_the_script_the_phone_seals_each_number_once() {
        let mut met = [0, 0, 0];
        for number in 1..=100 {
            let script = script(number);
            let phones = column(&script, 0);
            let sealed: Vec<u32> = phones.iter().filter_map(|shown| shown.parse().ok()).collect();
            assert!(sealed.windows(2).all(|pair| pair[0] < pair[1]), "{script}");
            let lost = |pair: &[u32]| pair[1] > pair[0] + 1;
            met[0] += sealed.len();
            met[1] += sealed.windows(2).filter(|pair| lost(pair)).count();
            met[2] += phones.iter().filter(|shown| *shown == "13 reserve").count();
        }
        assert!(met.iter().all(|&count| count > 100), "{met:?}");
    }
}
