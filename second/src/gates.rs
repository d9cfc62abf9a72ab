//! The S-boxes S7 and S9 of KASUMI as gate equations.
//! Follows 3GPP TS 35.202, the gate logic of clauses 4.5.1 (S7) and 4.5.2 (S9).

use crate::bits::{of_number, to_number, Bits};
use std::sync::LazyLock;

/// The equations of y0, y1, ...: `x1x3` is the and of two input bits, `^` the
/// exclusive or, `1` the constant; x0 and y0 are the lowest bits.
const S7_EQUATIONS: [&str; 7] = [
    "x1x3 ^ x4 ^ x0x1x4 ^ x5 ^ x2x5 ^ x3x4x5 ^ x6 ^ x0x6 ^ x1x6 ^ x3x6 ^ x2x4x6 ^ x1x5x6 ^ x4x5x6",
    "x0x1 ^ x0x4 ^ x2x4 ^ x5 ^ x1x2x5 ^ x0x3x5 ^ x6 ^ x0x2x6 ^ x3x6 ^ x4x5x6 ^ 1",
    "x0 ^ x0x3 ^ x2x3 ^ x1x2x4 ^ x0x3x4 ^ x1x5 ^ x0x2x5 ^ x0x6 ^ x0x1x6 ^ x2x6 ^ x4x6 ^ 1",
    "x1 ^ x0x1x2 ^ x1x4 ^ x3x4 ^ x0x5 ^ x0x1x5 ^ x2x3x5 ^ x1x4x5 ^ x2x6 ^ x1x3x6",
    "x0x2 ^ x3 ^ x1x3 ^ x1x4 ^ x0x1x4 ^ x2x3x4 ^ x0x5 ^ x1x3x5 ^ x0x4x5 ^ x1x6 ^ x3x6 ^ x0x3x6 \
     ^ x5x6 ^ 1",
    "x2 ^ x0x2 ^ x0x3 ^ x1x2x3 ^ x0x2x4 ^ x0x5 ^ x2x5 ^ x4x5 ^ x1x6 ^ x1x2x6 ^ x0x3x6 ^ x3x4x6 \
     ^ x2x5x6 ^ 1",
    "x1x2 ^ x0x1x3 ^ x0x4 ^ x1x5 ^ x3x5 ^ x6 ^ x0x1x6 ^ x2x3x6 ^ x1x4x6 ^ x0x5x6",
];

const S9_EQUATIONS: [&str; 9] = [
    "x0x2 ^ x3 ^ x2x5 ^ x5x6 ^ x0x7 ^ x1x7 ^ x2x7 ^ x4x8 ^ x5x8 ^ x7x8 ^ 1",
    "x1 ^ x0x1 ^ x2x3 ^ x0x4 ^ x1x4 ^ x0x5 ^ x3x5 ^ x6 ^ x1x7 ^ x2x7 ^ x5x8 ^ 1",
    "x1 ^ x0x3 ^ x3x4 ^ x0x5 ^ x2x6 ^ x3x6 ^ x5x6 ^ x4x7 ^ x5x7 ^ x6x7 ^ x8 ^ x0x8 ^ 1",
    "x0 ^ x1x2 ^ x0x3 ^ x2x4 ^ x5 ^ x0x6 ^ x1x6 ^ x4x7 ^ x0x8 ^ x1x8 ^ x7x8",
    "x0x1 ^ x1x3 ^ x4 ^ x0x5 ^ x3x6 ^ x0x7 ^ x6x7 ^ x1x8 ^ x2x8 ^ x3x8",
    "x2 ^ x1x4 ^ x4x5 ^ x0x6 ^ x1x6 ^ x3x7 ^ x4x7 ^ x6x7 ^ x5x8 ^ x6x8 ^ x7x8 ^ 1",
    "x0 ^ x2x3 ^ x1x5 ^ x2x5 ^ x4x5 ^ x3x6 ^ x4x6 ^ x5x6 ^ x7 ^ x1x8 ^ x3x8 ^ x5x8 ^ x7x8",
    "x0x1 ^ x0x2 ^ x1x2 ^ x3 ^ x0x3 ^ x2x3 ^ x4x5 ^ x2x6 ^ x3x6 ^ x2x7 ^ x5x7 ^ x8 ^ 1",
    "x0x1 ^ x2 ^ x1x2 ^ x3x4 ^ x1x5 ^ x2x5 ^ x1x6 ^ x4x6 ^ x7 ^ x2x8 ^ x3x8",
];

pub static S7: LazyLock<SBox> = LazyLock::new(|| standard(&S7_EQUATIONS));
pub static S9: LazyLock<SBox> = LazyLock::new(|| standard(&S9_EQUATIONS));

fn standard(equations: &[&str]) -> SBox {
    SBox::of_equations(equations).expect("the equations above are of their form")
}

/// A product of input bits: the number in which just these bits are set, so that it
/// holds for the inputs that have them all. The constant 1 is the product of none.
type Product = u64;

/// An S-box of as many input as output bits: for each output bit, lowest first,
/// the products whose exclusive or it is.
#[derive(Debug, PartialEq)]
pub struct SBox {
    outputs: Vec<Vec<Product>>,
}

impl SBox {
    /// The S-box of the equations of y0, y1, ..., if all are of their form.
    pub fn of_equations(equations: &[&str]) -> Option<SBox> {
        let products = |equation: &&str| equation.split('^').map(product).collect();
        let outputs: Option<_> = equations.iter().map(products).collect();
        Some(SBox { outputs: outputs? })
    }

    /// The output bits for these input bits, most significant first on both sides.
    pub fn apply(&self, input: &[bool]) -> Bits {
        assert_eq!(input.len(), self.outputs.len());
        let input = to_number(input);
        let holds = |product: &&Product| input & **product == **product;
        let output = |products: &Vec<Product>| products.iter().filter(holds).count() % 2 == 1;
        self.outputs.iter().rev().map(output).collect()
    }

    /// The whole S-box as a table: the output for input 0, 1, 2, ...
    pub fn table(&self) -> Vec<u16> {
        let width = self.outputs.len();
        let entry = |input| to_number(&self.apply(&of_number(input, width)));
        (0..1 << width).map(|input| entry(input) as u16).collect()
    }
}

/// Reads `x1x3` or `1`.
fn product(text: &str) -> Option<Product> {
    let text = text.trim();
    if text == "1" {
        return Some(0);
    }
    let bits = text.strip_prefix('x')?.split('x');
    bits.map(input_bit).try_fold(0, |product, bit| Some(product | bit?))
}

/// The bit that a number below nine names; no S-box has more inputs.
fn input_bit(text: &str) -> Option<Product> {
    let place: u32 = text.parse().ok()?;
    (place < 9).then(|| 1 << place)
}

#[cfg(test)]
mod tests {
    use super::*;

    fn assert_permutation(table: &[u16]) {
        let mut sorted = table.to_vec();
        sorted.sort_unstable();
        assert!(sorted.into_iter().eq(0..table.len() as u16));
    }

    #[test]
    fn each_s_box_is_a_permutation() {
        assert_permutation(&S7.table());
        assert_permutation(&S9.table());
    }

    #[test]
    fn the_constant_is_the_product_of_no_bits() {
        let inverter = SBox::of_equations(&["x0 ^ 1"]).unwrap();
        assert_eq!(inverter.table(), [1, 0]);
    }

    #[test]
    fn an_equation_of_another_form_is_none() {
        for bad in ["", "x", "0", "x9", "y0", "x0 + 1", "x0 ^", "x-1"] {
            assert_eq!(SBox::of_equations(&[bad]), None);
        }
    }
}
