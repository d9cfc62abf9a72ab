//! The core keystream generator KGCORE.
//! Follows source document 004, clause 4.

use crate::bits::{of_number, xor, zeros, Bits};
use crate::kasumi::kasumi;

/// The inputs of table 1, each a bit string of its own width; CL is the number of output bits.
pub struct Inputs {
    pub ca: Bits,
    pub cb: Bits,
    pub cc: Bits,
    pub cd: Bits,
    pub ce: Bits,
    pub ck: Bits,
    pub cl: usize,
}

/// The key modifier KM of clause 4.4, one half of it.
const HALF_OF_KM: u64 = 0x5555_5555_5555_5555;

/// The output bits CO[0] to CO[CL-1].
pub fn kgcore(inputs: &Inputs) -> Bits {
    let a = initialised(inputs);
    let blocks = inputs.cl.div_ceil(64);
    let mut ksb = zeros(64);
    let mut co = Bits::new();
    for n in 1..=blocks as u64 {
        let blkcnt = of_number(n - 1, 64);
        ksb = kasumi(&inputs.ck, &xor(&xor(&a, &blkcnt), &ksb));
        co.extend(&ksb);
    }
    co.truncate(inputs.cl);
    co
}

/// Clause 4.4: the register A, ciphered under the modified key.
fn initialised(inputs: &Inputs) -> Bits {
    let km = of_number(HALF_OF_KM, 64).repeat(2);
    kasumi(&xor(&inputs.ck, &km), &register(inputs))
}

/// Clause 4.4: the register A as it is first set.
fn register(inputs: &Inputs) -> Bits {
    let Inputs { ca, cb, cc, cd, ce, .. } = inputs;
    let register = [cc, cb, cd, &zeros(2), ca, ce].map(Bits::as_slice).concat();
    assert_eq!(register.len(), 64);
    register
}

#[cfg(test)]
mod tests {
    use super::*;
    use crate::bits::to_number;

    #[test]
    fn the_register_holds_its_fields_in_order() {
        let inputs = Inputs {
            ca: of_number(0xFF, 8),
            cb: of_number(0, 5),
            cc: of_number(0x98000000, 32),
            cd: of_number(1, 1),
            ce: of_number(0, 16),
            ck: zeros(128),
            cl: 1,
        };
        assert_eq!(to_number(&register(&inputs)), 0x9800_0000_04FF_0000);
    }
}
