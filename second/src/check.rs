//! This program held against the vector files: S-boxes, round keys, INPUT values,
//! every set.
//! Follows 3GPP TS 35.202 (tables and key schedule) and the files of the folder `vectors`.

use crate::bits::{to_number, Bits};
use crate::call;
use crate::gates::{SBox, S7, S9};
use crate::kasumi::{key_schedule, RoundKeys};
use crate::link;
use crate::vectors::{self, Published, Recorded};
use std::fs;
use std::path::Path;

/// A line `CALL<TAB>ANSWER` for every set, or everything that differs.
pub fn report(folder: &Path) -> Result<String, String> {
    let read = |name: &str| {
        let path = folder.join(name);
        fs::read_to_string(&path).map_err(|error| format!("{}: {error}", path.display()))
    };
    let mut differences = Vec::new();

    let gates = read("kasumi-gates.txt")?;
    for (name, s_box) in [("S7", &*S7), ("S9", &*S9)] {
        differences.extend(equations_differ(name, s_box, &gates));
        differences.extend(table_differs(name, s_box, &read(&format!("kasumi-{name}.txt"))?));
    }
    differences.extend(round_keys_differ(&read("kasumi.txt")?)?);
    differences.extend(inputs_differ(&read("gea.txt")?)?);

    let mut lines = String::new();
    for name in ["kasumi.txt", "a5.txt", "gea.txt", "f8.txt", "f9.txt", "aes.txt", "milenage.txt"] {
        let published = vectors::calls(&read(name)?)?;
        if published.is_empty() {
            differences.push(format!("{name}: no set"));
        }
        for Published { call, answer } in published {
            // A step within a chain has no answer of its own.
            let Some(answer) = answer else { continue };
            let own = call::answer(call.as_bytes()).unwrap_or("?".to_string());
            if own != answer {
                differences.push(format!("{name}: {call}\n  here {own}\n  published {answer}"));
            }
            lines.push_str(&format!("{call}\t{answer}\n"));
        }
    }

    if differences.is_empty() {
        Ok(lines)
    } else {
        Err(differences.join("\n"))
    }
}

/// The file has the equations of an S-box under its name, up to an empty line.
fn equations_differ(name: &str, s_box: &SBox, gates: &str) -> Option<String> {
    let lines = gates.lines().skip_while(|&line| line != name).skip(1);
    let equations: Option<Vec<&str>> = lines
        .take_while(|line| !line.is_empty())
        .enumerate()
        .map(|(number, line)| line.strip_prefix(&format!("y{number} = ")))
        .collect();
    let published = equations.and_then(|equations| SBox::of_equations(&equations));
    (published.as_ref() != Some(s_box))
        .then(|| format!("kasumi-gates.txt: the equations of {name} differ"))
}

fn table_differs(name: &str, s_box: &SBox, file: &str) -> Option<String> {
    let words = file.lines().filter(|line| !line.starts_with('#')).flat_map(str::split_whitespace);
    let published: Vec<&str> = words.collect();
    let own: Vec<String> = s_box.table().iter().map(u16::to_string).collect();
    if own.len() != published.len() {
        return Some(format!("kasumi-{name}.txt: {} entries", published.len()));
    }
    let input = (0..own.len()).find(|&input| own[input] != published[input])?;
    let (own, published) = (&own[input], published[input]);
    Some(format!("kasumi-{name}.txt: entry {input} is {own} here and {published} published"))
}

/// The sets that give their round keys name them KL1 to KI3, rounds 1 to 8 on a line.
fn round_keys_differ(file: &str) -> Result<Vec<String>, String> {
    type Subkey = fn(&RoundKeys) -> &Bits;
    let subkeys: [(&str, Subkey); 8] = [
        ("KL1", |keys| &keys.kl[0]),
        ("KL2", |keys| &keys.kl[1]),
        ("KO1", |keys| &keys.ko[0]),
        ("KO2", |keys| &keys.ko[1]),
        ("KO3", |keys| &keys.ko[2]),
        ("KI1", |keys| &keys.ki[0]),
        ("KI2", |keys| &keys.ki[1]),
        ("KI3", |keys| &keys.ki[2]),
    ];
    let mut differences = Vec::new();
    let mut compared = 0;
    for set in vectors::sets(file)?.iter().filter(|set| set.has("KL1")) {
        let rounds = key_schedule(&set.key_bits()?);
        for (name, subkey) in subkeys {
            let published = set.value(name)?;
            let own: Vec<String> =
                rounds.iter().map(|keys| format!("{:04X}", to_number(subkey(keys)))).collect();
            if own.join(" ") != published {
                differences.push(format!(
                    "kasumi.txt: {name} of key {} is {} here and {published} published",
                    set.value("key")?,
                    own.join(" "),
                ));
            }
            compared += 1;
        }
    }
    if compared == 0 {
        differences.push("kasumi.txt: no round keys".to_string());
    }
    Ok(differences)
}

/// The sets that give what is behind their INPUT name it iov, sapi and n.
fn inputs_differ(file: &str) -> Result<Vec<String>, String> {
    let recorded = vectors::recorded(file)?;
    if recorded.is_empty() {
        return Ok(vec!["gea.txt: no INPUT of an offset".to_string()]);
    }
    let differs = |Recorded { sender, input, .. }: Recorded| {
        let own = link::input(sender.link.iov, sender.link.sapi, sender.next);
        let message = format!("gea.txt: INPUT {own:08X} here and {input:08X} published");
        (own != input).then_some(message)
    };
    Ok(recorded.into_iter().filter_map(differs).collect())
}

#[cfg(test)]
mod tests {
    use super::*;

    const FOLDER: &str = concat!(env!("CARGO_MANIFEST_DIR"), "/../vectors");

    #[test]
    fn every_published_value_is_met() {
        let lines = report(Path::new(FOLDER)).unwrap_or_else(|differences| panic!("{differences}"));
        let with_key = |digits: usize| {
            let key = move |line: &&str| line.split([' ', '\t']).nth(1).unwrap().len() == digits;
            lines.lines().filter(key).count()
        };
        // The 24 sets of A5/3 and GEA3 are there with their own key and with it doubled; of KASUMI
        // four sets give the round keys too; those of f8 and f9 are two lines each, those of MILENAGE
        // eight.
        let whole = 9 + 4 + 31 + 13 + 2 * 5 + 2 * 11 + 2 + 8 * 19;
        assert_eq!((with_key(16), with_key(32)), (24, whole));
        assert_eq!(lines.lines().count(), 24 + whole);
    }

    #[test]
    fn a_wrong_entry_or_equation_is_named() {
        let half = "0 1 2 3 ".repeat(32);
        let message = table_differs("S7", &S7, &half).unwrap();
        assert!(message.contains("entry 0 is 54 here and 0 published"), "{message}");
        assert!(table_differs("S7", &S7, "54").is_some());
        assert!(equations_differ("S7", &S7, "S7\ny0 = x0\n").is_some());
        assert!(equations_differ("S7", &S7, "").is_some());
    }

    #[test]
    fn a_wrong_round_key_is_named() {
        let wrong = vectors::KASUMI.replacen("57AC", "57AD", 1);
        assert_eq!(round_keys_differ(&wrong).unwrap().len(), 1);
        assert_eq!(round_keys_differ("").unwrap(), ["kasumi.txt: no round keys"]);
    }

    #[test]
    fn a_wrong_input_is_named() {
        assert_eq!(inputs_differ(vectors::GEA).unwrap(), [""; 0]);
        let wrong = vectors::GEA.replacen("9800001A", "98000019", 1);
        let message = "gea.txt: INPUT 9800001A here and 98000019 published";
        assert_eq!(inputs_differ(&wrong).unwrap(), [message]);
        assert_eq!(inputs_differ("").unwrap(), ["gea.txt: no INPUT of an offset"]);
    }
}
