//! The bench frame: its header as bits, the look at a frame without a state.
//! Follows document 01, "The link", the paragraphs on the bench frame and the look.

use crate::bits::{of_number, of_octets, to_number, to_octets, Bits};
use crate::lent::{put, short};
use crate::link::numbering::LAST_N;
use crate::refusals::{first, LENGTH, NONE, RANGE, ROOM, SIZE, SPARE, VERSION};

pub const HEADER_OCTETS: usize = 6;
pub const LARGEST_PAYLOAD: usize = 1_520;
pub const LAST_DIRECTION: u8 = 1;
/// What four bits can tell; which of these numbers exist is not the frame's question.
const LARGEST_SAPI: u8 = 15;

/// The fields of the first six octets in their order.
struct Fields {
    l: u64,
    version: u64,
    sapi: u64,
    spare: u64,
    direction: u64,
    upper: u64,
    n: u64,
}

/// The width of each field in bits; together they fill the six octets.
const WIDTHS: [usize; 7] = [16, 8, 4, 3, 1, 7, 9];

impl Fields {
    /// Octets that are missing read as 0.
    fn read(frame: &[u8]) -> Fields {
        let octets = frame.iter().copied().chain([0; HEADER_OCTETS]);
        let mut bits = of_octets(&octets.take(HEADER_OCTETS).collect::<Vec<u8>>()).into_iter();
        let [l, version, sapi, spare, direction, upper, n] =
            WIDTHS.map(|width| to_number(&bits.by_ref().take(width).collect::<Bits>()));
        Fields { l, version, sapi, spare, direction, upper, n }
    }

    fn bits(&self) -> Bits {
        let &Fields { l, version, sapi, spare, direction, upper, n } = self;
        let fields = [l, version, sapi, spare, direction, upper, n].into_iter().zip(WIDTHS);
        fields.flat_map(|(field, width)| of_number(field, width)).collect()
    }
}

/// What a header says of the link and the number; N keeps the bits that should be zero.
#[derive(Debug, PartialEq)]
pub struct Header {
    pub sapi: u64,
    pub direction: u64,
    pub n: u64,
}

pub fn header(frame: &[u8]) -> Header {
    let Fields { sapi, direction, upper, n, .. } = Fields::read(frame);
    Header { sapi, direction, n: 512 * upper + n }
}

/// The ciphered payload, a stretch of the frame; empty when 5, 6 or 7 applies.
pub fn look(frame: &[u8]) -> &[u8] {
    if look_refusal(frame) == NONE {
        &frame[HEADER_OCTETS..]
    } else {
        &[]
    }
}

/// 5, 6 or 7, or 0.
pub fn look_refusal(frame: &[u8]) -> u8 {
    let Fields { l, version, spare, upper, .. } = Fields::read(frame);
    let slice = frame.len() as u64;
    first(&[
        (LENGTH, slice < 7 || !(5..=1_524).contains(&l) || slice != l + 2),
        (VERSION, version != 1),
        (SPARE, spare != 0 || upper != 0),
    ])
}

/// Writes the six octets before a payload of `size` octets.
pub fn put_header(sapi: u8, direction: u8, n: u32, size: usize, output: &mut [u8]) -> u8 {
    let refusal = first(&[
        (RANGE, sapi > LARGEST_SAPI || direction > LAST_DIRECTION || n > LAST_N),
        (SIZE, bad_size(size)),
        (ROOM, short(output, 8 * HEADER_OCTETS as u64)),
    ]);
    if refusal == NONE {
        put(&header_bits(sapi, direction, n, size), output);
    }
    refusal
}

/// 3: a payload has 1 to 1,520 octets.
pub fn bad_size(payload: usize) -> bool {
    payload == 0 || payload > LARGEST_PAYLOAD
}

/// The frame of a payload that is ciphered already.
pub fn framed(sapi: u8, direction: u8, n: u32, payload: &[u8]) -> Vec<u8> {
    [&to_octets(&header_bits(sapi, direction, n, payload.len())), payload].concat()
}

fn header_bits(sapi: u8, direction: u8, n: u32, size: usize) -> Bits {
    let (sapi, direction, n) = (sapi.into(), direction.into(), n.into());
    let l = size as u64 + 4;
    Fields { l, version: 1, sapi, spare: 0, direction, upper: 0, n }.bits()
}

#[cfg(test)]
mod tests {
    use super::*;

    #[test]
    fn the_layout_of_document_01() {
        let frame = framed(3, 1, 511, &[0xAB, 0xCD]);
        assert_eq!(frame, [0x00, 0x06, 0x01, 0x31, 0x01, 0xFF, 0xAB, 0xCD]);
        assert_eq!(look(&frame), [0xAB, 0xCD]);
        assert_eq!(header(&frame), Header { sapi: 3, direction: 1, n: 511 });
        assert_eq!(framed(0, 0, 0, &[0; 1_520])[..2], [0x05, 0xF4]);
    }

    #[test]
    fn length_is_named_before_version_and_version_before_spare() {
        let mut frame = framed(3, 1, 511, &[0xAB]);
        frame[3] |= 0b0010;
        assert_eq!(look_refusal(&frame), SPARE);
        frame[2] = 0;
        assert_eq!(look_refusal(&frame), VERSION);
        frame[1] = 6;
        assert_eq!(look_refusal(&frame), LENGTH);
        assert_eq!(look(&frame), []);
    }

    #[test]
    fn missing_octets_of_a_header_read_as_zero() {
        assert_eq!(header(&[]), Header { sapi: 0, direction: 0, n: 0 });
        assert_eq!(header(&[9, 9, 9, 0xFF, 0xFF]), Header { sapi: 15, direction: 1, n: 65_280 });
    }
}
