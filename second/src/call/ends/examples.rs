//! Document 01's examples of the link, and the recorded traffic of the vector files; beside the
//! short ones some that are spoiled.

use super::{ready, seal_line, sender_at};
use crate::call::headers::payload;
use crate::cases::{spoiled, KEY};
use crate::link::frame::HEADER_OCTETS;
use crate::link::states::Link;
use crate::random::Random;
use crate::vectors::{self, Recorded};

pub fn lines() -> Vec<String> {
    let mut random = Random::seeded(10);
    let mut lines = [inputs(), sizes(), recorded()].concat();
    for line in lines.clone().iter().filter(|line| line.len() < 200) {
        lines.extend((0..12).map(|_| spoiled(line, &mut random)));
    }
    lines
}

/// P1, and after it what P2 to P4 show, a carry, the wrap and the highest service, with services
/// that are assigned: zero octets are sealed into the keystream that GEA4 gives for the INPUT.
fn inputs() -> Vec<String> {
    let examples: [(u32, u8, u32, u32); 4] = [
        (0, 3, 0, 0x9800_0000),
        (0xFFFF_FFFF, 1, 1, 0x7800_0000),
        (0x77FF_FFFF, 1, 1, 0x0000_0000),
        (0, 11, 512, 0xD800_0200),
    ];
    let mut lines = Vec::new();
    for (iov, sapi, next, input) in examples {
        lines.extend([0, 1].map(|direction| {
            let link = Link { iov, sapi, direction, ..super::LINK };
            seal_line(ready(link, next), &[0; 16], 22)
        }));
        lines.extend([0, 1].map(|direction| format!("gea4 {KEY} 0x{input:08X} {direction} 16 16")));
    }
    lines
}

/// "Payload 1,520 seals into 1,526 octets; 1,521 and 0 give 3."
fn sizes() -> Vec<String> {
    [1_520, 1_521, 0].map(|size| seal_line(sender_at(0), &payload(size), 1_530)).to_vec()
}

/// The recorded frames: zero octets are sealed into the published keystream.
fn recorded() -> Vec<String> {
    let recorded = vectors::recorded(vectors::GEA).expect("the copied file is of its form");
    let line = |Recorded { sender, keystream, .. }: Recorded| {
        let size = keystream.len();
        seal_line(sender, &vec![0; size], HEADER_OCTETS + size)
    };
    recorded.into_iter().map(line).collect()
}

#[cfg(test)]
mod tests {
    use super::*;
    use crate::call;
    use crate::lines::hex;

    fn answers(lines: &[String]) -> Vec<String> {
        lines.iter().map(|line| call::answer(line.as_bytes()).unwrap()).collect()
    }

    fn last_field(answer: &str) -> &str {
        answer.rsplit(' ').next().unwrap()
    }

    #[test]
    fn a_sealed_zero_payload_is_the_keystream_of_its_input() {
        for answers in answers(&inputs()).chunks(4) {
            for direction in [0, 1] {
                let [frame, keystream] =
                    [direction, direction + 2].map(|place| last_field(&answers[place]));
                assert_eq!(&frame[12..], keystream);
            }
        }
    }

    #[test]
    fn the_recorded_frames_hold_the_published_keystream() {
        let published = vectors::recorded(vectors::GEA).unwrap();
        assert_eq!(published.len(), 4);
        for (answer, published) in answers(&recorded()).iter().zip(published) {
            assert_eq!(last_field(answer)[12..], hex(&published.keystream));
        }
    }
}
