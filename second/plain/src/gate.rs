//! The letters of gate lists and their images, by document 01, "Gate images".

use crate::generator::GENERATORS;
use crate::matrix::{signed_permutation, SIZE};
use crate::operator::Operator;

/// The longest gate list that is read.
pub const MAX_LETTERS: usize = 16_384;

/// A gate list of count t that is written has at most this many times t + 1 letters.
pub const LETTERS_PER_COUNT: usize = 256;

/// The letters of the Clifford gates.
pub const CLIFFORD_LETTERS: [u8; 5] = *b"HhSsZ";

static H_FIRST: Operator = clifford([3, -2, 1, 4, 5, 6]);
static H_SECOND: Operator = clifford([1, 2, 3, 6, -5, 4]);
static S_FIRST: Operator = clifford([2, -1, 3, 4, 5, 6]);
static S_SECOND: Operator = clifford([1, 2, 3, 5, -4, 6]);
static CZ: Operator = clifford([2, -1, 6, 5, -4, -3]);

/// The image of CS: generator 3.
pub static CS: Operator = GENERATORS[2].operator();

/// The image of a letter, if the byte is one.
pub fn image(letter: u8) -> Option<&'static Operator> {
    match letter {
        b'H' => Some(&H_FIRST),
        b'h' => Some(&H_SECOND),
        b'S' => Some(&S_FIRST),
        b's' => Some(&S_SECOND),
        b'Z' => Some(&CZ),
        b'C' => Some(&CS),
        _ => None,
    }
}

/// The Clifford with the given columns, each the signed number of a row.
pub const fn clifford(columns: [i64; SIZE]) -> Operator {
    Operator {
        matrix: signed_permutation(columns),
        exponent: 0,
    }
}

#[cfg(test)]
mod tests {
    use super::*;

    #[test]
    fn every_image_is_a_proper_operator() {
        for letter in *b"HhSsZC" {
            let image = image(letter).unwrap();
            assert!(image.is_orthogonal() && image.is_proper());
        }
    }

    #[test]
    fn no_other_byte_is_a_letter() {
        let letters: Vec<u8> = (0..=255).filter(|&byte| image(byte).is_some()).collect();
        assert_eq!(letters, b"CHSZhs");
    }

    #[test]
    fn two_cs_are_one_cz() {
        assert_eq!(CS.times(&CS).reduced(), CZ);
    }
}
