//! Where the ordinary version has an entry of S7, of S9 and of the S-box of AES from: tables, made once
//! from the equations; or the club's baseline, with S7 as a table, S9 by its gate equations at each
//! look-up and the S-box of AES computed at each use.
//! Follows 3GPP TS 35.202, the gate logic of clause 4.5.2 (S9), and document 02, item 9 (the baseline).

use super::milenage::{column_of, s_box, RoundTable};
use crate::gates::{S7, S9};

/// Where an entry of S7 and of S9 comes from, and one of the S-box of AES.
pub trait Boxes {
    fn s7(&self, seven: u16) -> u16;
    fn s9(&self, nine: u16) -> u16;
    fn s(&self, octet: u8) -> u8;
    /// What MixColumns makes of that entry in row 0.
    fn column(&self, octet: u8) -> u32;
}

const FITS: &str = "an S-box has an entry for each input";

/// All as tables, made once from the equations.
pub struct Tables {
    s7: [u16; 128],
    s9: [u16; 512],
    aes: RoundTable,
}

impl Tables {
    pub fn of_equations() -> Tables {
        Tables {
            s7: S7.table().try_into().expect(FITS),
            s9: S9.table().try_into().expect(FITS),
            aes: RoundTable::computed(),
        }
    }
}

impl Boxes for Tables {
    fn s7(&self, seven: u16) -> u16 {
        self.s7[usize::from(seven)]
    }

    fn s9(&self, nine: u16) -> u16 {
        self.s9[usize::from(nine)]
    }

    fn s(&self, octet: u8) -> u8 {
        self.aes.entry(octet)
    }

    fn column(&self, octet: u8) -> u32 {
        self.aes.column(octet)
    }
}

/// S7 as a table, S9 by its gate equations and the S-box of AES computed at each look-up.
pub struct Equations {
    s7: [u16; 128],
}

impl Equations {
    pub fn with_table_of_s7() -> Equations {
        Equations { s7: S7.table().try_into().expect(FITS) }
    }
}

impl Boxes for Equations {
    fn s7(&self, seven: u16) -> u16 {
        self.s7[usize::from(seven)]
    }

    fn s9(&self, nine: u16) -> u16 {
        let [x0, x1, x2, x3, x4, x5, x6, x7, x8] = std::array::from_fn(|place| nine >> place & 1);
        let y0 = x0 & x2
            ^ x3
            ^ x2 & x5
            ^ x5 & x6
            ^ x0 & x7
            ^ x1 & x7
            ^ x2 & x7
            ^ x4 & x8
            ^ x5 & x8
            ^ x7 & x8
            ^ 1;
        let y1 = x1
            ^ x0 & x1
            ^ x2 & x3
            ^ x0 & x4
            ^ x1 & x4
            ^ x0 & x5
            ^ x3 & x5
            ^ x6
            ^ x1 & x7
            ^ x2 & x7
            ^ x5 & x8
            ^ 1;
        let y2 = x1
            ^ x0 & x3
            ^ x3 & x4
            ^ x0 & x5
            ^ x2 & x6
            ^ x3 & x6
            ^ x5 & x6
            ^ x4 & x7
            ^ x5 & x7
            ^ x6 & x7
            ^ x8
            ^ x0 & x8
            ^ 1;
        let y3 = x0
            ^ x1 & x2
            ^ x0 & x3
            ^ x2 & x4
            ^ x5
            ^ x0 & x6
            ^ x1 & x6
            ^ x4 & x7
            ^ x0 & x8
            ^ x1 & x8
            ^ x7 & x8;
        let y4 = x0 & x1
            ^ x1 & x3
            ^ x4
            ^ x0 & x5
            ^ x3 & x6
            ^ x0 & x7
            ^ x6 & x7
            ^ x1 & x8
            ^ x2 & x8
            ^ x3 & x8;
        let y5 = x2
            ^ x1 & x4
            ^ x4 & x5
            ^ x0 & x6
            ^ x1 & x6
            ^ x3 & x7
            ^ x4 & x7
            ^ x6 & x7
            ^ x5 & x8
            ^ x6 & x8
            ^ x7 & x8
            ^ 1;
        let y6 = x0
            ^ x2 & x3
            ^ x1 & x5
            ^ x2 & x5
            ^ x4 & x5
            ^ x3 & x6
            ^ x4 & x6
            ^ x5 & x6
            ^ x7
            ^ x1 & x8
            ^ x3 & x8
            ^ x5 & x8
            ^ x7 & x8;
        let y7 = x0 & x1
            ^ x0 & x2
            ^ x1 & x2
            ^ x3
            ^ x0 & x3
            ^ x2 & x3
            ^ x4 & x5
            ^ x2 & x6
            ^ x3 & x6
            ^ x2 & x7
            ^ x5 & x7
            ^ x8
            ^ 1;
        let y8 = x0 & x1
            ^ x2
            ^ x1 & x2
            ^ x3 & x4
            ^ x1 & x5
            ^ x2 & x5
            ^ x1 & x6
            ^ x4 & x6
            ^ x7
            ^ x2 & x8
            ^ x3 & x8;
        let bits = [y8, y7, y6, y5, y4, y3, y2, y1, y0];
        bits.into_iter().fold(0, |entry, bit| entry << 1 | bit)
    }

    fn s(&self, octet: u8) -> u8 {
        s_box(octet)
    }

    fn column(&self, octet: u8) -> u32 {
        column_of(s_box(octet))
    }
}
