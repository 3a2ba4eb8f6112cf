//! Gate lists that grow letter by letter and know the least exponent of their product.

use plain::gate::{image, CLIFFORD_LETTERS};
use plain::operator::Operator;

use crate::Random;

/// The six letters of gate lists.
pub const LETTERS: [u8; 6] = *b"HhSsZC";

/// A gate list with its product.
#[derive(Clone, Debug)]
pub struct Walk {
    pub letters: Vec<u8>,
    pub product: Operator,
}

impl Walk {
    /// The empty list.
    pub fn new() -> Walk {
        Walk {
            letters: Vec::new(),
            product: Operator::IDENTITY,
        }
    }

    /// Random letters up to the first beginning with the given exponent; the last one is a C.
    pub fn reaching(random: &mut Random, exponent: u8) -> Walk {
        let mut walk = Walk::new();
        while walk.exponent() < exponent {
            let cliffords = 1 + random.below(4);
            walk.push_cliffords(random, cliffords);
            walk.push(b'C');
        }
        walk
    }

    /// The least exponent of the product.
    pub fn exponent(&self) -> u8 {
        self.product.exponent
    }

    /// Appends a letter.
    pub fn push(&mut self, letter: u8) {
        let image = image(letter).expect("a letter of the table");
        self.product = self.product.times(image).reduced();
        self.letters.push(letter);
    }

    /// Appends random Clifford letters.
    pub fn push_cliffords(&mut self, random: &mut Random, letters: usize) {
        for _ in 0..letters {
            self.push(*random.pick(&CLIFFORD_LETTERS));
        }
    }

    /// The letters that undo this list: each letter often enough to reach its order.
    pub fn undoing(&self) -> Vec<u8> {
        let letters = self.letters.iter().rev();
        let undone = letters.flat_map(|&letter| std::iter::repeat_n(letter, order(letter) - 1));
        undone.collect()
    }
}

impl Default for Walk {
    fn default() -> Walk {
        Walk::new()
    }
}

/// The order of a letter's image.
fn order(letter: u8) -> usize {
    match letter {
        b'H' | b'h' => 2,
        b'C' => 8,
        _ => 4,
    }
}
