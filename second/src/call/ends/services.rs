//! Every service number that an octet can hold, with both directions and 2: either end is opened
//! with it, and a payload sealed and a frame opened in a state that holds it.

use super::{open_line, ready, seal_line, sealed, LINK};
use crate::call::headers::payload;
use crate::lines::hex;
use crate::link::frame::framed;
use crate::link::states::{Link, Receiver};

pub fn lines() -> Vec<String> {
    (0..=u8::MAX)
        .flat_map(|sapi| [0, 1, 2].map(|direction| Link { sapi, direction, ..LINK }))
        .flat_map(through)
        .collect()
}

/// The frame is what a sender in this state seals; where the state cannot arise, one whose header
/// has the low four bits of the SAPI and the low bit of the direction.
fn through(link: Link) -> [String; 4] {
    let Link { key, iov, sapi, direction } = link;
    let open_end = |end: &str| format!("open_{end} {} {iov} {sapi} {direction}", hex(&key));
    let (sender, receiver) = (ready(link, 540), Receiver { link, next: 540, marks: 1 });
    let frame = if link.cannot_arise() {
        framed(sapi % 16, direction % 2, 540 % 512, &payload(4))
    } else {
        sealed(sender, &payload(4))
    };
    [
        open_end("sender"),
        open_end("receiver"),
        seal_line(sender, &payload(4), 11),
        open_line(receiver, &frame, 5),
    ]
}

#[cfg(test)]
mod tests {
    use super::*;
    use crate::call;

    #[test]
    fn the_eight_services_pass_and_every_other_number_gives_2_2_12_and_12() {
        let lines = lines();
        assert_eq!(lines.len(), 4 * 3 * 256);
        for (place, line) in lines.iter().enumerate() {
            let (sapi, direction) = (place / 12, place / 4 % 3);
            let good = [1, 2, 3, 5, 7, 8, 9, 11].contains(&sapi) && direction < 2;
            let expected = if good { "0" } else { ["2", "2", "12", "12"][place % 4] };
            let answer = call::answer(line.as_bytes()).unwrap();
            assert_eq!(answer.split(' ').next(), Some(expected), "{line}");
        }
    }
}
