//! The product's MILENAGE: refusals in their order, results at the front of lent octets.
//! Follows document 02, item 7.

use crate::bits::{of_octets, Bits};
use crate::lent::{put, short};
use crate::milenage::{self, Challenge};
use crate::refusals::{bad_key, first, KEY, LENGTH, NONE, ROOM};

/// What every call but `opc` takes.
#[derive(Clone, Copy)]
pub struct Given<'octets> {
    pub key: &'octets [u8],
    pub opc: &'octets [u8],
    pub rand: &'octets [u8],
}

/// What f1 and f1* take besides.
#[derive(Clone, Copy)]
pub struct Numbered<'octets> {
    pub sqn: &'octets [u8],
    pub amf: &'octets [u8],
}

pub fn opc(key: &[u8], op: &[u8], output: &mut [u8]) -> u8 {
    let bad = bad_key(key) || bad_key(op);
    let refusal = first(&[(KEY, bad), (ROOM, short(output, 128))]);
    if refusal == NONE {
        put(&milenage::opc(&of_octets(key), &of_octets(op)), output);
    }
    refusal
}

pub fn f1(given: Given, numbered: Numbered, output: &mut [u8]) -> u8 {
    code(given, numbered, output, Challenge::f1)
}

pub fn f1_star(given: Given, numbered: Numbered, output: &mut [u8]) -> u8 {
    code(given, numbered, output, Challenge::f1_star)
}

pub fn f2(given: Given, output: &mut [u8]) -> u8 {
    answered(given, false, 64, output, Challenge::f2)
}

pub fn f3(given: Given, output: &mut [u8]) -> u8 {
    answered(given, false, 128, output, Challenge::f3)
}

pub fn f4(given: Given, output: &mut [u8]) -> u8 {
    answered(given, false, 128, output, Challenge::f4)
}

pub fn f5(given: Given, output: &mut [u8]) -> u8 {
    answered(given, false, 48, output, Challenge::f5)
}

pub fn f5_star(given: Given, output: &mut [u8]) -> u8 {
    answered(given, false, 48, output, Challenge::f5_star)
}

/// The causes of 5.
fn bad_length(Numbered { sqn, amf }: Numbered) -> bool {
    sqn.len() != 6 || amf.len() != 2
}

/// The causes of 1.
fn bad_strings(Given { key, opc, rand }: Given) -> bool {
    [key, opc, rand].into_iter().any(bad_key)
}

fn code(
    given: Given,
    numbered: Numbered,
    output: &mut [u8],
    function: fn(&Challenge, &[bool], &[bool]) -> Bits,
) -> u8 {
    let (sqn, amf) = (of_octets(numbered.sqn), of_octets(numbered.amf));
    answered(given, bad_length(numbered), 64, output, |challenge| function(challenge, &sqn, &amf))
}

/// The refusal; without one the bits of the function stand at the front of the output.
fn answered(
    given: Given,
    bad_length: bool,
    bits: u64,
    output: &mut [u8],
    function: impl Fn(&Challenge) -> Bits,
) -> u8 {
    let refusal =
        first(&[(KEY, bad_strings(given)), (LENGTH, bad_length), (ROOM, short(output, bits))]);
    if refusal == NONE {
        let Given { key, opc, rand } = given;
        let challenge = Challenge { k: of_octets(key), opc: of_octets(opc), rand: of_octets(rand) };
        put(&function(&challenge), output);
    }
    refusal
}

#[cfg(test)]
mod tests {
    use super::*;

    const GIVEN: Given = Given { key: &[1; 16], opc: &[2; 16], rand: &[3; 16] };
    const NUMBERED: Numbered = Numbered { sqn: &[4; 6], amf: &[5; 2] };

    #[test]
    fn a_room_one_octet_short_is_refused_and_octets_past_the_result_are_kept() {
        type Call = fn(&mut [u8]) -> u8;
        let calls: [(usize, Call); 8] = [
            (16, |output| opc(&[1; 16], &[2; 16], output)),
            (8, |output| f1(GIVEN, NUMBERED, output)),
            (8, |output| f1_star(GIVEN, NUMBERED, output)),
            (8, |output| f2(GIVEN, output)),
            (16, |output| f3(GIVEN, output)),
            (16, |output| f4(GIVEN, output)),
            (6, |output| f5(GIVEN, output)),
            (6, |output| f5_star(GIVEN, output)),
        ];
        for (room, call) in calls {
            let (mut exact, mut longer) = (vec![0xAA; room], vec![0xAA; room + 3]);
            assert_eq!(call(&mut exact[..room - 1]), ROOM);
            assert_eq!(exact, vec![0xAA; room]);
            assert_eq!((call(&mut exact), call(&mut longer)), (NONE, NONE));
            assert_eq!(longer, [&exact[..], &[0xAA; 3]].concat());
            assert_ne!(exact, vec![0xAA; room]);
        }
    }

    #[test]
    fn a_string_of_another_length_is_1_a_number_of_another_length_5() {
        let mut output = [0xAA; 8];
        for octets in 0..40 {
            let other = vec![7; octets];
            let strings = [
                Given { key: &other, ..GIVEN },
                Given { opc: &other, ..GIVEN },
                Given { rand: &other, ..GIVEN },
            ];
            for given in strings {
                let expected = if octets == 16 { NONE } else { KEY };
                assert_eq!(f1(given, NUMBERED, &mut output), expected);
                assert_eq!(f2(given, &mut output), expected);
            }
            for (numbered, right) in [
                (Numbered { sqn: &other, ..NUMBERED }, 6),
                (Numbered { amf: &other, ..NUMBERED }, 2),
            ] {
                let expected = if octets == right { NONE } else { LENGTH };
                assert_eq!(f1_star(GIVEN, numbered, &mut output), expected);
            }
        }
    }
}
