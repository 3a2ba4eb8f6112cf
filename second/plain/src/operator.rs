//! Operators and their files, by document 01, "Operators", and document 02, P10. A file that is read may
//! carry any exponent; a file that is written carries that of the operator given.

use crate::file::Kind;
use crate::matrix::{self, Matrix, IDENTITY};
use crate::refusal;

/// A matrix divided by root two to the power `exponent`.
#[derive(Clone, Copy, Debug, PartialEq, Eq)]
pub struct Operator {
    pub matrix: Matrix,
    pub exponent: u8,
}

impl Operator {
    /// The identity at exponent 0.
    pub const IDENTITY: Operator = Operator {
        matrix: IDENTITY,
        exponent: 0,
    };

    /// Reads and checks an operator file of either kind; the operator comes with its least exponent.
    pub fn read(file: &[u8]) -> Result<Operator, u8> {
        let kind = Kind::of_length(file.len()).ok_or(refusal::FILE_LENGTH)?;
        let operator = kind.decode(file);
        if operator.exponent > kind.max_exponent() {
            return Err(refusal::EXPONENT_TOO_LARGE);
        }
        if operator.has_large_entry() {
            return Err(refusal::ENTRY_TOO_LARGE);
        }
        if !operator.is_orthogonal() {
            return Err(refusal::NOT_ORTHOGONAL);
        }
        if !operator.is_proper() {
            return Err(refusal::NOT_PROPER);
        }
        Ok(operator.reduced())
    }

    /// The product; the exponents add.
    pub fn times(&self, right: &Operator) -> Operator {
        Operator {
            matrix: matrix::multiply(&self.matrix, &right.matrix),
            exponent: self.exponent + right.exponent,
        }
    }

    /// The operator with every sign turned.
    pub fn negative(&self) -> Operator {
        Operator {
            matrix: matrix::scale(&self.matrix, -1),
            exponent: self.exponent,
        }
    }

    /// The operator if the sign is 0, its negative if it is 1.
    pub fn with_sign(&self, sign: u8) -> Operator {
        match sign {
            0 => *self,
            1 => self.negative(),
            _ => panic!("a sign is 0 or 1"),
        }
    }

    /// The inverse of an orthogonal operator.
    pub fn inverse(&self) -> Operator {
        Operator {
            matrix: matrix::transpose(&self.matrix),
            exponent: self.exponent,
        }
    }

    /// The same operator at its least exponent.
    pub fn reduced(mut self) -> Operator {
        while self.exponent >= 2 && matrix::is_even(&self.matrix) {
            self.matrix = matrix::halve(&self.matrix);
            self.exponent -= 2;
        }
        self
    }

    /// Whether the square of an entry exceeds 2 to the power of the exponent.
    fn has_large_entry(&self) -> bool {
        let most = 1 << self.exponent;
        self.matrix.iter().flatten().any(|x| x * x > most)
    }

    /// Whether the matrix times its transpose is 2 to the power of the exponent.
    pub fn is_orthogonal(&self) -> bool {
        let square = matrix::multiply(&self.matrix, &matrix::transpose(&self.matrix));
        square == matrix::scale(&IDENTITY, 1 << self.exponent)
    }

    /// Whether the determinant of an orthogonal operator is positive.
    pub fn is_proper(&self) -> bool {
        matrix::has_positive_determinant(&self.matrix, self.exponent)
    }

    /// Whether a proper orthogonal operator is a Clifford: at exponent 0, with one entry of +1 or -1 in each row
    /// and column.
    pub fn is_clifford(&self) -> bool {
        let units =
            |row: &[i64; matrix::SIZE]| row.iter().map(|entry| entry.abs()).sum::<i64>() == 1;
        let columns = matrix::transpose(&self.matrix);
        self.exponent == 0 && self.matrix.iter().all(units) && columns.iter().all(units)
    }
}

#[cfg(test)]
mod tests {
    use super::*;
    use crate::file::MAX_EXPONENT;
    use crate::gate::{clifford, CS};

    #[test]
    fn reading_brings_every_exponent_to_the_least() {
        for half in 0..=MAX_EXPONENT / 2 {
            let doubled = Operator {
                matrix: matrix::scale(&IDENTITY, 1 << half),
                exponent: 2 * half,
            };
            for kind in Kind::ALL {
                let read = if doubled.exponent <= kind.max_exponent() {
                    Ok(Operator::IDENTITY)
                } else {
                    Err(refusal::EXPONENT_TOO_LARGE)
                };
                assert_eq!(Operator::read(&kind.file(&doubled)), read);
            }
        }
    }

    #[test]
    fn a_clifford_is_a_signed_permutation_at_exponent_0() {
        assert!(Operator::IDENTITY.is_clifford());
        assert!(Operator::IDENTITY.negative().is_clifford());
        assert!(clifford([-3, 1, 2, 5, -6, 4]).is_clifford());
        let doubled = Operator {
            matrix: matrix::scale(&IDENTITY, 2),
            exponent: 2,
        };
        assert!(!doubled.is_clifford());
        assert!(doubled.reduced().is_clifford());
        assert!(!CS.is_clifford());
        assert!(!with_entry(1, 0).is_clifford());
        let mut twice = Operator::IDENTITY;
        twice.matrix[1] = twice.matrix[0];
        assert!(!twice.is_clifford() && !twice.inverse().is_clifford());
    }

    /// The lowest and the highest that the kinds hold, and those around the largest that is not too large.
    #[test]
    fn an_entry_whose_square_exceeds_the_power_is_too_large() {
        for kind in Kind::ALL {
            for exponent in 0..=kind.max_exponent() {
                let most = (1i64 << exponent).isqrt();
                let (lowest, highest) = kind.range();
                for entry in [most + 1, -most - 1, lowest, lowest + 1, highest] {
                    let read = Operator::read(&kind.file(&with_entry(entry, exponent)));
                    assert_eq!(read, Err(refusal::ENTRY_TOO_LARGE));
                }
                for entry in [most, -most] {
                    let read = Operator::read(&kind.file(&with_entry(entry, exponent)));
                    assert_eq!(read, Err(refusal::NOT_ORTHOGONAL));
                }
            }
        }
    }

    /// A matrix of zeros but for one entry.
    fn with_entry(entry: i64, exponent: u8) -> Operator {
        let mut operator = Operator {
            matrix: matrix::scale(&IDENTITY, 0),
            exponent,
        };
        operator.matrix[3][2] = entry;
        operator
    }
}
