//! The sets of AES and of MILENAGE as lines of the program `call`.

use super::{Published, Set};

pub fn aes(set: &Set) -> Result<Published, String> {
    let (key, plaintext) = (set.value("key")?, set.value("plaintext")?);
    Ok(Published {
        call: format!("aes {key} {plaintext} 16"),
        answer: Some(format!("0 {}", set.value("ciphertext")?)),
    })
}

/// A set of MILENAGE is eight calls: OPc from OP, and with this OPc each of the functions.
pub fn milenage(set: &Set) -> Result<[Published; 8], String> {
    let (k, opc, rand) = (set.value("k")?, set.value("opc")?, set.value("rand")?);
    let common = format!("{k} {opc} {rand}");
    let numbered = format!("{common} {} {}", set.value("sqn")?, set.value("amf")?);
    let published = |name: &str, inputs: &str, answer: &str| Published {
        call: format!("{name} {inputs} {}", answer.len() / 2),
        answer: Some(format!("0 {answer}")),
    };
    Ok([
        published("opc", &format!("{k} {}", set.value("op")?), opc),
        published("f1", &numbered, set.value("f1")?),
        published("f1_star", &numbered, set.value("f1*")?),
        published("f2", &common, set.value("f2")?),
        published("f3", &common, set.value("f3")?),
        published("f4", &common, set.value("f4")?),
        published("f5", &common, set.value("f5")?),
        published("f5_star", &common, set.value("f5*")?),
    ])
}

#[cfg(test)]
mod tests {
    use crate::vectors::calls;

    #[test]
    fn a_set_of_aes_is_a_call_and_one_of_milenage_eight() {
        let pairs = |file: &str| -> Vec<[String; 2]> {
            let calls = calls(file).unwrap().into_iter();
            calls.map(|published| [published.call, published.answer.unwrap()]).collect()
        };
        let aes = "key = 00\nplaintext = 11\nciphertext = 22";
        assert_eq!(pairs(aes), [["aes 00 11 16", "0 22"]]);
        let milenage =
            "k = 01\nrand = 02\nsqn = 03\namf = 04\nop = 05\nopc = 06\nf1 = 07\nf1* = 08\n\
            f2 = 09\nf3 = 0A0B\nf4 = 0C\nf5 = 0D\nf5* = 0E";
        let expected = [
            ["opc 01 05 1", "0 06"],
            ["f1 01 06 02 03 04 1", "0 07"],
            ["f1_star 01 06 02 03 04 1", "0 08"],
            ["f2 01 06 02 1", "0 09"],
            ["f3 01 06 02 2", "0 0A0B"],
            ["f4 01 06 02 1", "0 0C"],
            ["f5 01 06 02 1", "0 0D"],
            ["f5_star 01 06 02 1", "0 0E"],
        ];
        assert_eq!(pairs(milenage), expected);
        assert!(calls(&milenage.replace("f5* = 0E", "")).is_err());
    }
}
