//! A small generator of numbers, the same on every machine, for random cases.
//! A linear congruential step modulo 2^64, of which the upper, better bits are used.

pub struct Random {
    state: u64,
}

impl Random {
    pub fn seeded(seed: u64) -> Random {
        Random { state: seed }
    }

    /// Thirty-two bits.
    fn word(&mut self) -> u32 {
        self.state = self
            .state
            .wrapping_mul(6_364_136_223_846_793_005)
            .wrapping_add(1_442_695_040_888_963_407);
        (self.state >> 32) as u32
    }

    pub fn number(&mut self) -> u64 {
        u64::from(self.word()) << 32 | u64::from(self.word())
    }

    pub fn octet(&mut self) -> u8 {
        self.number() as u8
    }

    /// A number from 0 to one below the bound; the small bias does no harm to test cases.
    pub fn below(&mut self, bound: usize) -> usize {
        (self.number() % bound as u64) as usize
    }

    pub fn one_of<Choice: Copy>(&mut self, choices: &[Choice]) -> Choice {
        choices[self.below(choices.len())]
    }

    /// Hex digits of random octets, each digit in either case.
    pub fn digits(&mut self, octets: usize) -> String {
        (0..2 * octets).map(|_| char::from(self.one_of(b"0123456789ABCDEFabcdef"))).collect()
    }
}
