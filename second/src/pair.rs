//! The third generation pair on lists of bits: f8, which enciphers, and f9, which gives a code.
//! Follows source document 004, annex A (f8), and 3GPP TS 35.201 (f9).

use crate::bits::{of_number, xor, zeros, Bits};
use crate::kasumi::kasumi;
use crate::kgcore::{kgcore, Inputs};

/// The key modifier KM of f9, one half of it.
const HALF_OF_KM: u64 = 0xAAAA_AAAA_AAAA_AAAA;

/// The message xor the keystream KS, for a key of 128 bits, a COUNT of 32, a BEARER of five and a
/// DIRECTION of one.
pub fn f8(
    key: &[bool],
    count: &[bool],
    bearer: &[bool],
    direction: &[bool],
    message: &[bool],
) -> Bits {
    let ks = kgcore(&Inputs {
        ca: zeros(8),
        cb: bearer.to_vec(),
        cc: count.to_vec(),
        cd: direction.to_vec(),
        ce: zeros(16),
        ck: key.to_vec(),
        cl: message.len(),
    });
    xor(message, &ks)
}

/// The code of 32 bits, for a key of 128 bits, a COUNT and a FRESH of 32 and a DIRECTION of one.
pub fn f9(
    key: &[bool],
    count: &[bool],
    fresh: &[bool],
    direction: &[bool],
    message: &[bool],
) -> Bits {
    let (mut a, mut b) = (zeros(64), zeros(64));
    for block in padded(count, fresh, direction, message).chunks(64) {
        a = kasumi(key, &xor(&a, block));
        b = xor(&b, &a);
    }
    let km = of_number(HALF_OF_KM, 64).repeat(2);
    let mut code = kasumi(&xor(key, &km), &b);
    code.truncate(32);
    code
}

/// The padded string PS: zeros after the 1 fill the last block of 64 bits.
fn padded(count: &[bool], fresh: &[bool], direction: &[bool], message: &[bool]) -> Bits {
    let mut ps = [count, fresh, message, direction, &[true]].concat();
    ps.resize(ps.len().next_multiple_of(64), false);
    ps
}

#[cfg(test)]
mod tests {
    use super::*;
    use crate::bits::{of_octets, to_octets};
    use crate::lines::{hex, octets};

    fn bits_of(digits: &str, length: usize) -> Bits {
        of_octets(&octets(digits.as_bytes()).unwrap())[..length].to_vec()
    }

    #[test]
    fn f8_test_sets_3_and_4_of_ts_35_203() {
        let sets = [
            (
                "5ACB1D644C0D51204EA5F1451010D852",
                (0xFA55_6B26, 0x03, true),
                (120, "AD9C441F890B38C457A49D421407E8"),
                "9BC92CA803C67B28A11A4BEE5A0C25",
            ),
            (
                "D3C5D592327FB11C4035C6680AF8C6D1",
                (0x398A_59B4, 0x05, true),
                (253, "981BA6824C1BFB1AB485472029B71D808CE33E2CC3C0B5FC1F3DE8A6DC66B1F0"),
                "5BB9431BB1E98BD11B93DB7C3D45136559BB86A295AA204ECBEBF6F7A5101510",
            ),
        ];
        for (key, (count, bearer, direction), (bits, message), output) in sets {
            let (key, message) = (bits_of(key, 128), bits_of(message, bits));
            let (count, bearer) = (of_number(count, 32), of_number(bearer, 5));
            let ciphered = f8(&key, &count, &bearer, &[direction], &message);
            assert_eq!(hex(&to_octets(&ciphered)), output);
            assert_eq!(f8(&key, &count, &bearer, &[direction], &ciphered), message);
        }
    }

    #[test]
    fn f9_test_set_1_of_ts_35_203_with_its_padded_string() {
        let key = bits_of("2BD6459F82C5B300952C49104881FF48", 128);
        let (count, fresh) = (of_number(0x38A6_F056, 32), of_number(0x05D2_EC49, 32));
        let message = bits_of("6B227737296F393C8079353EDC87E2E805D2EC49A4F2D8E0", 189);
        // After 189 bits come DIRECTION, which is 0, and the 1: the last octet is E2.
        let string = "38A6F05605D2EC496B227737296F393C8079353EDC87E2E805D2EC49A4F2D8E2";
        assert_eq!(hex(&to_octets(&padded(&count, &fresh, &[false], &message))), string);
        assert_eq!(f9(&key, &count, &fresh, &[false], &message), of_number(0xF63B_D72C, 32));
        assert_ne!(f9(&key, &count, &fresh, &[true], &message), of_number(0xF63B_D72C, 32));
    }

    #[test]
    fn from_0_to_63_zeros_fill_the_last_block() {
        let zeros_after = |bits: usize| {
            let ps = padded(&zeros(32), &zeros(32), &[true], &vec![true; bits]);
            assert_eq!(ps.len() % 64, 0);
            assert_eq!(ps[64..64 + bits + 2], vec![true; bits + 2]);
            assert!(!ps[64 + bits + 2..].contains(&true));
            ps.len() - 64 - bits - 2
        };
        assert_eq!(
            [1, 61, 62, 63, 64, 65, 126, 127].map(zeros_after),
            [61, 1, 0, 63, 62, 61, 0, 63]
        );
        let ps = padded(&zeros(32), &zeros(32), &[false], &[true]);
        assert_eq!(ps[64..68], [true, false, true, false]);
    }
}
