//! AES-128, enciphering alone, on a matrix of octets; an octet is a polynomial over the two bits, and
//! an entry of the S-box is computed at each use.
//! Follows FIPS 197: clause 3.4 (the state), 4 (the field), 5.1 (the cipher), 5.2 (the key expansion).

/// Four octets: a word of the key schedule, a column of the state.
pub type Word = [u8; 4];

/// The octet of row r and column c is `state[r][c]`.
type State = [[u8; 4]; 4];

/// The rounds of AES-128.
const ROUNDS: usize = 10;

/// The words of an expanded key: four before the first round and four in each.
pub const WORDS: usize = 4 * (ROUNDS + 1);

/// m(x) = x^8 + x^4 + x^3 + x + 1 (clause 4.2).
const M: u16 = 0x11B;

/// a(x) = {03}x^3 + {01}x^2 + {01}x + {02}, the lowest first (clause 5.1.3).
const A: Word = [0x02, 0x01, 0x01, 0x03];

/// The block of 16 octets under a key of 16.
pub fn aes(key: &[u8; 16], block: &[u8; 16]) -> [u8; 16] {
    cipher(&key_expansion(key), block)
}

/// Cipher of clause 5.1, by any words.
pub fn cipher(words: &[Word; WORDS], block: &[u8; 16]) -> [u8; 16] {
    let mut state = state_of(block);
    let mut round_keys = words.chunks(4);
    let mut add_round_key = |state: State| {
        let round_key = round_keys.next().expect("there is a round key for each round");
        each(|row, column| state[row][column] ^ round_key[column][row])
    };
    state = add_round_key(state);
    for _ in 1..ROUNDS {
        state = add_round_key(mix_columns(shift_rows(sub_bytes(state))));
    }
    octets_of(add_round_key(shift_rows(sub_bytes(state))))
}

/// KeyExpansion of clause 5.2.
pub fn key_expansion(key: &[u8; 16]) -> [Word; WORDS] {
    let mut words = [[0; 4]; WORDS];
    let mut rcon = 0x01;
    for place in 0..WORDS {
        words[place] = if place < 4 {
            std::array::from_fn(|octet| key[4 * place + octet])
        } else if place % 4 == 0 {
            let [first, rest @ ..] = rotated(words[place - 1]).map(s_box);
            let temp = [&[first ^ rcon], &rest[..]].concat();
            rcon = product(rcon, 0x02);
            std::array::from_fn(|octet| words[place - 4][octet] ^ temp[octet])
        } else {
            std::array::from_fn(|octet| words[place - 4][octet] ^ words[place - 1][octet])
        };
    }
    words
}

/// RotWord.
fn rotated([first, second, third, fourth]: Word) -> Word {
    [second, third, fourth, first]
}

fn each(octet: impl Fn(usize, usize) -> u8) -> State {
    std::array::from_fn(|row| std::array::from_fn(|column| octet(row, column)))
}

/// The octets fill the state column by column.
fn state_of(block: &[u8; 16]) -> State {
    each(|row, column| block[row + 4 * column])
}

fn octets_of(state: State) -> [u8; 16] {
    std::array::from_fn(|place| state[place % 4][place / 4])
}

fn sub_bytes(state: State) -> State {
    each(|row, column| s_box(state[row][column]))
}

/// Row r goes r places to the left.
fn shift_rows(state: State) -> State {
    each(|row, column| state[row][(column + row) % 4])
}

/// Each column, as a polynomial whose coefficients are octets, times a(x) modulo x^4 + 1.
fn mix_columns(state: State) -> State {
    let mut mixed = [[0; 4]; 4];
    for column in 0..4 {
        for (power, coefficient) in A.into_iter().enumerate() {
            for row in 0..4 {
                mixed[(power + row) % 4][column] ^= product(coefficient, state[row][column]);
            }
        }
    }
    mixed
}

/// The inverse, or 0 for 0, and the affine map of clause 5.1.1: bit i of the result is the sum of
/// bits i, i + 4, i + 5, i + 6 and i + 7, all modulo 8, and of bit i of {63}.
fn s_box(octet: u8) -> u8 {
    let inverse = inverse(octet);
    let bit = |place: usize| inverse >> (place % 8) & 1;
    let places = (0..8).rev();
    let sums =
        places.map(|i| bit(i) ^ bit(i + 4) ^ bit(i + 5) ^ bit(i + 6) ^ bit(i + 7) ^ 0x63 >> i & 1);
    sums.fold(0, |entry, bit| entry << 1 | bit)
}

/// By the extended algorithm of Euclid (clause 4.2): along the remainders of m(x) and the octet runs
/// what each of them is as a multiple of the octet, modulo m(x).
fn inverse(octet: u8) -> u8 {
    let (mut former, mut latter) = ((M, 0), (u16::from(octet), 1));
    while latter.0 > 1 {
        let (quotient, remainder) = divided(former.0, latter.0);
        let multiple = former.1 ^ times(quotient, latter.1);
        (former, latter) = (latter, (remainder, multiple));
    }
    // The remainder 0, of the octet 0 alone, has no inverse; it stands for itself.
    if latter.0 == 0 {
        0
    } else {
        divided(latter.1, M).1 as u8
    }
}

/// The product of two octets modulo m(x).
fn product(left: u8, right: u8) -> u8 {
    divided(times(left.into(), right.into()), M).1 as u8
}

/// The product of two polynomials, of less than 16 bits together.
fn times(left: u16, right: u16) -> u16 {
    let shifted = (0..16).filter(|&power| right >> power & 1 == 1).map(|power| left << power);
    shifted.fold(0, |sum, term| sum ^ term)
}

/// The quotient and the remainder of polynomials; the divisor is not 0.
fn divided(dividend: u16, divisor: u16) -> (u16, u16) {
    let (mut quotient, mut remainder) = (0, dividend);
    for power in (0..=divisor.leading_zeros()).rev() {
        // Of one degree with the divisor: what is left of a higher one is taken off already.
        if (remainder >> power).leading_zeros() == divisor.leading_zeros() {
            quotient |= 1 << power;
            remainder ^= divisor << power;
        }
    }
    (quotient, remainder)
}

#[cfg(test)]
mod tests {
    use super::*;
    use crate::lines::{hex, octets};

    fn sixteen(digits: &str) -> [u8; 16] {
        octets(digits.as_bytes()).unwrap().try_into().unwrap()
    }

    #[test]
    fn appendix_a_1_of_fips_197() {
        let words = key_expansion(&sixteen("2b7e151628aed2a6abf7158809cf4f3c"));
        let shown = |place: usize| hex(&words[place]);
        assert_eq!([0, 1, 2, 3].map(shown).concat(), "2B7E151628AED2A6ABF7158809CF4F3C");
        assert_eq!(shown(4), "A0FAFE17");
        assert_eq!(shown(43), "B6630CA6");
    }

    #[test]
    fn appendices_b_and_c_1_of_fips_197() {
        let ciphered = |key, block| hex(&aes(&sixteen(key), &sixteen(block)));
        assert_eq!(
            ciphered("2b7e151628aed2a6abf7158809cf4f3c", "3243f6a8885a308d313198a2e0370734"),
            "3925841D02DC09FBDC118597196A0B32"
        );
        assert_eq!(
            ciphered("000102030405060708090a0b0c0d0e0f", "00112233445566778899aabbccddeeff"),
            "69C4E0D86A7B0430D8CDB78070B4C55A"
        );
    }

    #[test]
    fn the_examples_of_clauses_4_and_5_1_1_of_fips_197() {
        assert_eq!(product(0x57, 0x83), 0xC1);
        assert_eq!(product(0x57, 0x13), 0xFE);
        assert_eq!((s_box(0x53), s_box(0x00)), (0xED, 0x63));
    }

    #[test]
    fn every_octet_but_0_times_its_inverse_is_1_and_no_two_have_one_entry() {
        let mut entries: Vec<u8> = (0..=255).map(s_box).collect();
        entries.sort();
        assert_eq!(entries, (0..=255).collect::<Vec<u8>>());
        assert!((1..=255).all(|octet| product(octet, inverse(octet)) == 1));
        assert_eq!(inverse(0), 0);
    }
}
