//! The vector files: their sets, and each set as lines of the program `call`.
//! Follows the form that the folder `vectors` describes: sets of `name = value` lines
//! between empty lines, `#` before a comment.

mod milenage;

use crate::bits::{of_number, of_octets, to_number, Bits};
use crate::kasumi::kasumi;
use crate::lines::{based, hex, octets};
use crate::link::states::{Link, Sender};
use crate::product::ciphers::prepare_key;
use crate::refusals::NONE;
use std::collections::BTreeMap;
use std::str::FromStr;

pub const KASUMI: &str = include_str!("../../vectors/kasumi.txt");
pub const A5: &str = include_str!("../../vectors/a5.txt");
pub const GEA: &str = include_str!("../../vectors/gea.txt");
pub const F8: &str = include_str!("../../vectors/f8.txt");
pub const F9: &str = include_str!("../../vectors/f9.txt");
pub const AES: &str = include_str!("../../vectors/aes.txt");
pub const MILENAGE: &str = include_str!("../../vectors/milenage.txt");

/// A call, and its answer where the set gives one.
pub struct Published {
    pub call: String,
    pub answer: Option<String>,
}

/// A set of GEA that gives the offset, the service and the number behind its INPUT: the
/// sender of that frame.
pub struct Recorded {
    pub sender: Sender,
    pub input: u32,
    pub keystream: Vec<u8>,
}

/// The `name = value` lines of one set.
pub struct Set<'file>(BTreeMap<&'file str, &'file str>);

impl<'file> Set<'file> {
    pub fn value(&self, name: &str) -> Result<&'file str, String> {
        self.0.get(name).copied().ok_or_else(|| format!("a set has no {name}: {:?}", self.0))
    }

    pub fn has(&self, name: &str) -> bool {
        self.0.contains_key(name)
    }

    fn decimal<Number: FromStr>(&self, name: &str) -> Result<Number, String> {
        let value = self.value(name)?;
        value.parse().map_err(|_| format!("{name} = {value} is not decimal"))
    }

    fn hex<Number: TryFrom<u64>>(&self, name: &str) -> Result<Number, String> {
        let value = self.value(name)?;
        based(value.as_bytes(), 16).ok_or(format!("{name} = {value} is not hex"))
    }

    fn octets(&self, name: &str) -> Result<Vec<u8>, String> {
        let value = self.value(name)?;
        octets(value.as_bytes()).ok_or(format!("{name} = {value} is not octets"))
    }

    /// The 16 octets that the key yields.
    fn prepared_key(&self) -> Result<[u8; 16], String> {
        match prepare_key(&self.octets("key")?) {
            (NONE, key) => Ok(key),
            _ => Err(format!("key = {} is not 8 or 16 octets", self.value("key")?)),
        }
    }

    pub fn key_bits(&self) -> Result<Bits, String> {
        Ok(of_octets(&self.prepared_key()?))
    }

    /// The digits of the key as the set has it, and of its 16 octets where these are others.
    fn both_keys(&self) -> Result<Vec<String>, String> {
        let mut keys = vec![self.value("key")?.to_string(), hex(&self.prepared_key()?)];
        keys.dedup();
        Ok(keys)
    }
}

/// The sets of a file; a paragraph of comments alone is none.
pub fn sets(file: &str) -> Result<Vec<Set<'_>>, String> {
    let mut sets = Vec::new();
    for paragraph in file.split("\n\n") {
        let lines = paragraph.lines().filter(|line| !line.is_empty() && !line.starts_with('#'));
        let values: Result<BTreeMap<_, _>, String> = lines
            .map(|line| line.split_once(" = ").ok_or(format!("not a name and its value: {line}")))
            .collect();
        sets.push(Set(values?));
    }
    sets.retain(|set| !set.0.is_empty());
    Ok(sets)
}

/// The calls of all sets of a file.
pub fn calls(file: &str) -> Result<Vec<Published>, String> {
    let mut calls = Vec::new();
    for set in sets(file)? {
        if set.has("co") {
            calls.push(kgcore(&set)?);
        } else if set.has("kind") {
            calls.extend(a5(&set)?);
        } else if set.has("m") {
            calls.extend(gea4(&set)?);
        } else if set.has("bearer") {
            calls.extend(f8(&set)?);
        } else if set.has("fresh") {
            calls.extend(f9(&set)?);
        } else if set.has("plaintext") {
            calls.push(milenage::aes(&set)?);
        } else if set.has("rand") {
            calls.extend(milenage::milenage(&set)?);
        } else {
            calls.extend(chain(&set)?);
            calls.extend(round_keys(&set)?);
        }
    }
    Ok(calls)
}

/// The sets of a file that give what is behind their INPUT.
pub fn recorded(file: &str) -> Result<Vec<Recorded>, String> {
    let recorded = |set: &Set| {
        let link = Link {
            key: set.prepared_key()?,
            iov: set.hex("iov")?,
            sapi: set.decimal("sapi")?,
            direction: set.decimal("direction")?,
        };
        let next = set.decimal("n")?;
        Ok(Recorded {
            sender: Sender { link, next, reserved: next + 1 },
            input: set.hex("input")?,
            keystream: set.octets("output")?,
        })
    };
    sets(file)?.iter().filter(|set| set.has("iov")).map(recorded).collect()
}

/// The names of a round's keys, in the order in which the product hands them out.
const ROUND_KEYS: [&str; 8] = ["KL1", "KL2", "KO1", "KO2", "KO3", "KI1", "KI2", "KI3"];

/// The keys of all rounds, where the set gives them: on the line of a name one for each round.
fn round_keys(set: &Set) -> Result<Option<Published>, String> {
    if !set.has("KL1") {
        return Ok(None);
    }
    let lines: Result<Vec<&str>, String> = ROUND_KEYS.iter().map(|name| set.value(name)).collect();
    let lines: Vec<Vec<&str>> = lines?.iter().map(|line| line.split(' ').collect()).collect();
    let words = (0..8).flat_map(|round| lines.iter().map(move |line| line.get(round).copied()));
    let words: Option<Vec<&str>> = words.collect();
    let words = words.ok_or("a set has fewer than eight round keys on a line")?.concat();
    let key = set.value("key")?;
    Ok(Some(Published { call: format!("round_keys {key}"), answer: Some(format!("0 {words}")) }))
}

fn kgcore(set: &Set) -> Result<Published, String> {
    let value = |name| set.value(name);
    let (ca, cb, cc) = (value("ca")?, value("cb")?, value("cc")?);
    let (cd, ce, co) = (value("cd")?, value("ce")?, value("co")?);
    let (key, cl, room) = (value("key")?, set.decimal::<usize>("bits")?, co.len() / 2);
    Ok(Published {
        call: format!("kgcore {key} 0x{ca} 0x{cb} 0x{cc} 0x{cd} 0x{ce} {cl} {room}"),
        answer: Some(format!("0 {co}")),
    })
}

/// A set of A5/3 is two calls: with its own key of 8 octets, and with that key twice.
fn a5(set: &Set) -> Result<Vec<Published>, String> {
    let (name, room) = match set.value("kind")? {
        "GSM" => ("gsm", 15),
        "ECSD" => ("ecsd", 44),
        other => return Err(format!("kind = {other} is neither GSM nor ECSD")),
    };
    let count = set.value("count")?;
    let (block1, block2) = (set.value("block1")?, set.value("block2")?);
    let published = |key: String| Published {
        call: format!("{name} {key} 0x{count} {room} {room}"),
        answer: Some(format!("0 {block1} {block2}")),
    };
    Ok(set.both_keys()?.into_iter().map(published).collect())
}

/// So is a set of GEA3.
fn gea4(set: &Set) -> Result<Vec<Published>, String> {
    let (input, direction) = (set.value("input")?, set.value("direction")?);
    let (m, output) = (set.decimal::<usize>("m")?, set.value("output")?);
    let published = |key: String| Published {
        call: format!("gea4 {key} 0x{input} {direction} {m} {m}"),
        answer: Some(format!("0 {output}")),
    };
    Ok(set.both_keys()?.into_iter().map(published).collect())
}

/// A set of f8 is two calls, there and back: the spare bits of its message are zero, as are those
/// of its output.
fn f8(set: &Set) -> Result<[Published; 2], String> {
    let (key, count, bearer) = (set.value("key")?, set.value("count")?, set.value("bearer")?);
    let (direction, bits) = (set.value("direction")?, set.decimal::<usize>("bits")?);
    let (message, output) = (set.value("message")?, set.value("output")?);
    let room = bits.div_ceil(8);
    let published = |from: &str, to: &str| Published {
        call: format!("f8 {key} 0x{count} 0x{bearer} {direction} {from} {bits} {room}"),
        answer: Some(format!("0 {to}")),
    };
    Ok([published(message, output), published(output, message)])
}

/// A set of f9 is two calls: the code made, and the code checked.
fn f9(set: &Set) -> Result<[Published; 2], String> {
    let (key, count, fresh) = (set.value("key")?, set.value("count")?, set.value("fresh")?);
    let (direction, bits) = (set.value("direction")?, set.decimal::<usize>("bits")?);
    let (message, code) = (set.value("message")?, set.value("code")?);
    let fields = format!("{key} 0x{count} 0x{fresh} {direction} {message} {bits}");
    let made = Published { call: format!("f9 {fields}"), answer: Some(format!("0 {code}")) };
    let call = format!("check_code {fields} 0x{code}");
    Ok([made, Published { call, answer: Some("0 1".to_string()) }])
}

/// A set of KASUMI, with `times` a chain of calls. Only the answer to the last call is
/// published; the inputs on the way are this program's own.
fn chain(set: &Set) -> Result<Vec<Published>, String> {
    let (key, key_bits, output) = (set.value("key")?, set.key_bits()?, set.value("output")?);
    let times = if set.has("times") { set.decimal("times")? } else { 1 };
    let mut block: u64 = set.hex("input")?;
    let mut calls = Vec::new();
    for time in 1..=times {
        calls.push(Published {
            call: format!("kasumi {key} 0x{block:016X}"),
            answer: (time == times).then(|| format!("0 {output}")),
        });
        block = to_number(&kasumi(&key_bits, &of_number(block, 64)));
    }
    Ok(calls)
}

#[cfg(test)]
mod tests {
    use super::*;

    #[test]
    fn comments_and_empty_lines_are_no_sets() {
        let sets = sets("# head\n\n# one\nkey = 00\n\n\nkey = 01\nm = 2\n").unwrap();
        let keys: Vec<_> = sets.iter().map(|set| set.value("key").unwrap()).collect();
        assert_eq!(keys, ["00", "01"]);
        assert!(super::sets("key 00").is_err());
    }

    #[test]
    fn a_short_key_stands_as_it_is_and_doubled_and_a_chain_ends_in_the_published_value() {
        let gsm = "kind = GSM\nkey = 0123456789ABCDEF\ncount = 01\nblock1 = 11\nblock2 = 22";
        let both = calls(gsm).unwrap();
        let keys = ["0123456789ABCDEF", "0123456789ABCDEF0123456789ABCDEF"];
        assert_eq!(both.len(), keys.len());
        for (published, key) in both.iter().zip(keys) {
            assert_eq!(published.call, format!("gsm {key} 0x01 15 15"));
            assert_eq!(published.answer.as_deref(), Some("0 11 22"));
        }
        assert!(calls(&gsm.replace("EF", "")).is_err());

        let answers = calls(KASUMI).unwrap().into_iter().map(|published| published.answer);
        assert_eq!(answers.filter(Option::is_none).count(), 49);
    }

    #[test]
    fn a_set_of_f8_goes_there_and_back_and_one_of_f9_is_made_and_checked() {
        let pairs = |file: &str| -> Vec<(String, String)> {
            let calls = calls(file).unwrap().into_iter();
            calls.map(|published| (published.call, published.answer.unwrap())).collect()
        };
        let expected = |lines: [(&str, &str); 2]| {
            lines.map(|(call, answer)| (call.to_string(), answer.to_string())).to_vec()
        };
        let f8 = "key = 00\ncount = 01\nbearer = 1F\ndirection = 1\nbits = 9\nmessage = AB80\n";
        let both =
            [("f8 00 0x01 0x1F 1 AB80 9 2", "0 CD00"), ("f8 00 0x01 0x1F 1 CD00 9 2", "0 AB80")];
        assert_eq!(pairs(&format!("{f8}output = CD00")), expected(both));
        let f9 = "key = 00\ncount = 01\nfresh = 02\ndirection = 0\nbits = 9\nmessage = AB80\n";
        let both = [
            ("f9 00 0x01 0x02 0 AB80 9", "0 EF"),
            ("check_code 00 0x01 0x02 0 AB80 9 0xEF", "0 1"),
        ];
        assert_eq!(pairs(&format!("{f9}code = EF")), expected(both));
    }
}
