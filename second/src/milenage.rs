//! MILENAGE on lists of bits: what a challenge gives to those who know the key.
//! Follows 3GPP TS 35.206, clause 4.1, with the constants of its example set; E is AES-128.

use crate::aes::aes;
use crate::bits::{of_number, of_octets, rotated, to_octets, xor, Bits};

/// r1 to r5: by how many places a string is rotated.
const R: [usize; 5] = [64, 0, 32, 64, 96];

/// c1 to c5, as numbers of 128 bits.
const C: [u64; 5] = [0, 1, 2, 4, 8];

/// What goes into every function, 128 bits each.
pub struct Challenge {
    pub k: Bits,
    pub opc: Bits,
    pub rand: Bits,
}

/// OPc, 128 bits, of a key and an OP of 128 bits each.
pub fn opc(k: &[bool], op: &[bool]) -> Bits {
    xor(op, &e(k, op))
}

impl Challenge {
    /// MAC-A, for an SQN of 48 bits and an AMF of 16.
    pub fn f1(&self, sqn: &[bool], amf: &[bool]) -> Bits {
        self.out1(sqn, amf)[..64].to_vec()
    }

    /// MAC-S.
    pub fn f1_star(&self, sqn: &[bool], amf: &[bool]) -> Bits {
        self.out1(sqn, amf)[64..].to_vec()
    }

    /// RES.
    pub fn f2(&self) -> Bits {
        self.out(2)[64..].to_vec()
    }

    /// CK.
    pub fn f3(&self) -> Bits {
        self.out(3)
    }

    /// IK.
    pub fn f4(&self) -> Bits {
        self.out(4)
    }

    /// AK.
    pub fn f5(&self) -> Bits {
        self.out(2)[..48].to_vec()
    }

    /// AK of a resynchronisation.
    pub fn f5_star(&self) -> Bits {
        self.out(5)[..48].to_vec()
    }

    fn temp(&self) -> Bits {
        e(&self.k, &xor(&self.rand, &self.opc))
    }

    /// TEMP is xored in after the rotation, and what this gives is enciphered once more.
    fn out1(&self, sqn: &[bool], amf: &[bool]) -> Bits {
        let in1 = [sqn, amf, sqn, amf].concat();
        let turned = rotated(&xor(&in1, &self.opc), R[0]);
        self.enciphered(&xor(&self.temp(), &turned), 1)
    }

    /// OUT2 to OUT5.
    fn out(&self, number: usize) -> Bits {
        let turned = rotated(&xor(&self.temp(), &self.opc), R[number - 1]);
        self.enciphered(&turned, number)
    }

    fn enciphered(&self, turned: &[bool], number: usize) -> Bits {
        let constant = [of_number(0, 64), of_number(C[number - 1], 64)].concat();
        xor(&e(&self.k, &xor(turned, &constant)), &self.opc)
    }
}

fn e(k: &[bool], block: &[bool]) -> Bits {
    let octets = |bits| to_octets(bits).try_into().expect("128 bits are 16 octets");
    of_octets(&aes(&octets(k), &octets(block)))
}

#[cfg(test)]
mod tests {
    use super::*;
    use crate::lines::{hex, octets};
    use crate::random::Random;

    fn bits_of(digits: &str) -> Bits {
        of_octets(&octets(digits.as_bytes()).unwrap())
    }

    fn shown(bits: Bits) -> String {
        hex(&to_octets(&bits))
    }

    #[test]
    fn test_set_1_of_ts_35_208() {
        let k = bits_of("465B5CE8B199B49FAA5F0A2EE238A6BC");
        let opc = opc(&k, &bits_of("CDC202D5123E20F62B6D676AC72CB318"));
        assert_eq!(shown(opc.clone()), "CD63CB71954A9F4E48A5994E37A02BAF");
        let (sqn, amf) = (bits_of("FF9BB4D0B607"), bits_of("B9B9"));
        let challenge = Challenge { k, opc, rand: bits_of("23553CBE9637A89D218AE64DAE47BF35") };
        assert_eq!(shown(challenge.f1(&sqn, &amf)), "4A9FFAC354DFAFB3");
        assert_eq!(shown(challenge.f1_star(&sqn, &amf)), "01CFAF9EC4E871E9");
        assert_eq!(shown(challenge.f2()), "A54211D5E3BA50BF");
        assert_eq!(shown(challenge.f3()), "B40BA9A3C58B2A05BBF0D987B21BF8CB");
        assert_eq!(shown(challenge.f4()), "F769BCD751044604127672711C6D3441");
        assert_eq!(shown(challenge.f5()), "AA689C648370");
        assert_eq!(shown(challenge.f5_star()), "451E8BECA43B");
    }

    #[test]
    fn f1_and_f1_star_are_the_halves_of_out1_and_f5_and_f2_lie_in_out2() {
        let mut random = Random::seeded(41);
        for _ in 0..20 {
            let mut bits = |octets: usize| bits_of(&random.digits(octets));
            let challenge = Challenge { k: bits(16), opc: bits(16), rand: bits(16) };
            let (sqn, amf) = (bits(6), bits(2));
            let halves = [challenge.f1(&sqn, &amf), challenge.f1_star(&sqn, &amf)];
            assert_eq!(halves.concat(), challenge.out1(&sqn, &amf));
            let (out2, f5, f2) = (challenge.out(2), challenge.f5(), challenge.f2());
            assert_eq!((&out2[..48], &out2[64..]), (&f5[..], &f2[..]));
        }
    }

    /// Of zeros OUT1 is E of TEMP. The appendix of source document 001 leaves this second encryption
    /// out; TS 35.206 decides.
    #[test]
    fn f1_is_enciphered_a_second_time() {
        let zeros = || of_number(0, 64).repeat(2);
        let challenge = Challenge { k: zeros(), opc: zeros(), rand: zeros() };
        let (sqn, amf) = (of_number(0, 48), of_number(0, 16));
        let temp = challenge.temp();
        assert_eq!(challenge.out1(&sqn, &amf), e(&zeros(), &temp));
        assert_ne!(challenge.out1(&sqn, &amf), temp);
    }
}
