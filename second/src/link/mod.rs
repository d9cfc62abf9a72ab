//! The link: numbered, ciphered frames from a sender's end to a receiver's.
//! Follows document 01, "The link" and "Refusal numbers", and document 02, items 4 and 5.

pub mod ends;
pub mod frame;
pub mod numbering;
pub mod reserving;
pub mod services;
pub mod states;
pub mod stored;

use crate::bits::{of_number, to_number, xor};

/// INPUT of 32 bits for the frame of a number, by the formula of TS 44.064.
pub fn input(iov: u32, sapi: u8, number: u32) -> u32 {
    let sx = (1 << 27) * u64::from(sapi) + (1 << 31);
    let offset = to_number(&xor(&of_number(iov.into(), 32), &of_number(sx, 32)));
    let sum = offset + u64::from(number);
    (sum % (1 << 32)) as u32
}

#[cfg(test)]
mod tests {
    use super::*;

    #[test]
    fn p1_to_p4_of_document_01_as_arithmetic() {
        assert_eq!(input(0, 3, 0), 0x9800_0000);
        assert_eq!(input(0xFFFF_FFFF, 0, 1), 0x8000_0000);
        assert_eq!(input(0x7FFF_FFFF, 0, 1), 0x0000_0000);
        assert_eq!(input(0, 15, 512), 0xF800_0200);
    }

    /// Document 02, item 11. Under every offset the first INPUT values of two services are at least
    /// 2^27 apart on the circle of 2^32, and those of some two exactly that. Tried for each choice
    /// of the five bits that SX turns over, with the bits below all 0, all 1 and mixed.
    #[test]
    fn the_services_begin_2_27_apart_and_two_of_them_no_more() {
        let services = services::assigned();
        for offset in
            (0..32).flat_map(|high| [0, 0x0123_4567, 0x07FF_FFFF].map(|low| high << 27 | low))
        {
            let begin = |&sapi: &u8| input(offset, sapi, 0);
            let nearest = services.iter().flat_map(|one| {
                let others = services.iter().filter(move |&other| other != one);
                others.map(move |other| begin(other).wrapping_sub(begin(one)))
            });
            assert_eq!(nearest.min(), Some(1 << 27), "{offset:08X}");
        }
    }
}
