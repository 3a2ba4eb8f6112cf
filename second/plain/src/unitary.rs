//! Four-by-four unitaries and their 65 bytes, by document 02, P5, and the plain matrices of the letters, by
//! source document 001, section 2. The first qubit is the left tensor factor.

use crate::omega::{Number, POWERS};
use crate::refusal;

/// The number of rows and of columns.
pub const SIZE: usize = 4;

/// The largest exponent that is read.
pub const MAX_EXPONENT: u8 = 29;

/// The length of a unitary: the exponent, and two parts of 16 bits for each entry.
pub const UNITARY_BYTES: usize = 1 + 4 * SIZE * SIZE;

/// A matrix, row by row.
pub type Matrix = [[Number; SIZE]; SIZE];

/// A matrix divided by root two to the power `exponent`.
#[derive(Clone, Copy, Debug, PartialEq, Eq)]
pub struct Unitary {
    pub matrix: Matrix,
    pub exponent: u8,
}

const I: Number = Number::I;
const ONE: Number = Number::ONE;
const MINUS: Number = Number::ONE.negative();

static H_FIRST: Unitary = over_root_two([[1, 0, 1, 0], [0, 1, 0, 1], [1, 0, -1, 0], [0, 1, 0, -1]]);
static H_SECOND: Unitary =
    over_root_two([[1, 1, 0, 0], [1, -1, 0, 0], [0, 0, 1, 1], [0, 0, 1, -1]]);
static S_FIRST: Unitary = diagonal([ONE, ONE, I, I]);
static S_SECOND: Unitary = diagonal([ONE, I, ONE, I]);
static CZ: Unitary = diagonal([ONE, ONE, ONE, MINUS]);
static CS: Unitary = diagonal([ONE, ONE, ONE, I]);

/// The plain matrix of a letter, if the byte is one.
pub fn plain_matrix(letter: u8) -> Option<&'static Unitary> {
    match letter {
        b'H' => Some(&H_FIRST),
        b'h' => Some(&H_SECOND),
        b'S' => Some(&S_FIRST),
        b's' => Some(&S_SECOND),
        b'Z' => Some(&CZ),
        b'C' => Some(&CS),
        _ => None,
    }
}

impl Unitary {
    /// The identity at exponent 0.
    pub const IDENTITY: Unitary = diagonal([ONE; SIZE]);

    /// Reads and checks the bytes of a unitary; it comes with its least exponent.
    pub fn read(bytes: &[u8]) -> Result<Unitary, u8> {
        if bytes.len() != UNITARY_BYTES || bytes[0] > MAX_EXPONENT {
            return Err(refusal::UNITARY_SHAPE);
        }
        let unitary = Unitary::decode(bytes);
        if unitary.has_large_entry() {
            return Err(refusal::UNITARY_ENTRY);
        }
        if !unitary.is_unitary() {
            return Err(refusal::NOT_UNITARY);
        }
        Ok(unitary.reduced())
    }

    /// Takes bytes of the right length apart.
    fn decode(bytes: &[u8]) -> Unitary {
        let part = |at: usize| i64::from(i16::from_le_bytes([bytes[at], bytes[at + 1]]));
        let entry = |at: usize| Number::gaussian(part(at), part(at + 2));
        let row = |r: usize| std::array::from_fn(|c| entry(1 + 4 * (SIZE * r + c)));
        Unitary {
            matrix: std::array::from_fn(row),
            exponent: bytes[0],
        }
    }

    /// Writes the bytes of the unitary over the whole of `out`, which has their length. All entries are
    /// Gaussian integers.
    pub fn write(&self, out: &mut [u8]) {
        out[0] = self.exponent;
        let entries = self.matrix.iter().flatten();
        for (bytes, entry) in out[1..].chunks_exact_mut(4).zip(entries) {
            let (re, im) = entry.parts().expect("a Gaussian integer");
            let (first, second) = bytes.split_at_mut(2);
            first.copy_from_slice(&(re as i16).to_le_bytes());
            second.copy_from_slice(&(im as i16).to_le_bytes());
        }
    }

    /// The product of letters, all of which are in the table, at its least exponent.
    pub fn product(letters: &[u8]) -> Unitary {
        let matrices = letters.iter().map(|&letter| plain_matrix(letter));
        matrices.fold(Unitary::IDENTITY, |product, matrix| {
            let matrix = matrix.expect("a letter of the table");
            product.times(matrix).reduced()
        })
    }

    /// The product; the exponents add.
    pub fn times(&self, right: &Unitary) -> Unitary {
        Unitary {
            matrix: multiply(&self.matrix, &right.matrix),
            exponent: self.exponent + right.exponent,
        }
    }

    /// The unitary times ω to a power.
    pub fn times_omega(&self, power: u8) -> Unitary {
        Unitary {
            matrix: scale(&self.matrix, Number::omega_to(power)),
            exponent: self.exponent,
        }
    }

    /// The power of ω, from 0 to 7, that makes `other` this unitary, if one does. Both have their least
    /// exponents.
    pub fn power_of_omega_from(&self, other: &Unitary) -> Option<u8> {
        (0..POWERS).find(|&power| other.times_omega(power) == *self)
    }

    /// The same unitary at the least exponent for which all entries have whole coefficients.
    pub fn reduced(mut self) -> Unitary {
        while self.exponent >= 1 {
            let Some(matrix) = over_root_two_each(&self.matrix) else {
                break;
            };
            self.matrix = matrix;
            self.exponent -= 1;
        }
        self
    }

    /// The same unitary at the least exponent for which all entries are Gaussian integers: the least of all,
    /// or one more.
    pub fn gaussian(self) -> Unitary {
        let least = self.reduced();
        if least.is_gaussian() {
            return least;
        }
        let next = Unitary {
            matrix: scale(&least.matrix, Number::ROOT_TWO),
            exponent: least.exponent + 1,
        };
        assert!(next.is_gaussian(), "a unitary of this form");
        next
    }

    fn is_gaussian(&self) -> bool {
        let mut entries = self.matrix.iter().flatten();
        entries.all(|entry| entry.parts().is_some())
    }

    /// Whether the squared size of an entry, a Gaussian integer, exceeds 2 to the power of the exponent.
    fn has_large_entry(&self) -> bool {
        let most = 1 << self.exponent;
        let mut squares = self.matrix.iter().flatten().map(|&entry| {
            let (re, im) = entry.parts().expect("a Gaussian integer");
            re * re + im * im
        });
        squares.any(|square| square > most)
    }

    /// Whether the matrix times its conjugate transpose is 2 to the power of the exponent.
    pub fn is_unitary(&self) -> bool {
        let adjoint = transpose(&self.matrix).map(|row| row.map(Number::conjugate));
        let square = Number::gaussian(1 << self.exponent, 0);
        multiply(&self.matrix, &adjoint) == diagonal([square; SIZE]).matrix
    }
}

/// The product of two matrices.
pub fn multiply(left: &Matrix, right: &Matrix) -> Matrix {
    let mut product = [[Number::ZERO; SIZE]; SIZE];
    for row in 0..SIZE {
        for inner in 0..SIZE {
            for column in 0..SIZE {
                let term = left[row][inner].times(right[inner][column]);
                product[row][column] = product[row][column].plus(term);
            }
        }
    }
    product
}

/// The matrix with rows and columns exchanged.
pub fn transpose(matrix: &Matrix) -> Matrix {
    std::array::from_fn(|row| std::array::from_fn(|column| matrix[column][row]))
}

/// The matrix with every entry multiplied by `factor`.
pub fn scale(matrix: &Matrix, factor: Number) -> Matrix {
    matrix.map(|row| row.map(|entry| entry.times(factor)))
}

/// The matrix with every entry divided by √2; none if a quotient has no whole coefficients.
fn over_root_two_each(matrix: &Matrix) -> Option<Matrix> {
    let mut divided = *matrix;
    for entry in divided.as_flattened_mut() {
        *entry = entry.over_root_two()?;
    }
    Some(divided)
}

/// A matrix of whole numbers, divided by √2.
const fn over_root_two(rows: [[i64; SIZE]; SIZE]) -> Unitary {
    let mut matrix = [[Number::ZERO; SIZE]; SIZE];
    let mut at = 0;
    while at < SIZE * SIZE {
        let (row, column) = (at / SIZE, at % SIZE);
        matrix[row][column] = Number::gaussian(rows[row][column], 0);
        at += 1;
    }
    Unitary {
        matrix,
        exponent: 1,
    }
}

const fn diagonal(entries: [Number; SIZE]) -> Unitary {
    let mut matrix = [[Number::ZERO; SIZE]; SIZE];
    let mut at = 0;
    while at < SIZE {
        matrix[at][at] = entries[at];
        at += 1;
    }
    Unitary {
        matrix,
        exponent: 0,
    }
}

#[cfg(test)]
mod tests {
    use super::*;

    type OneQubit = [[Number; 2]; 2];

    const ZERO: Number = Number::ZERO;
    const IDENTITY: OneQubit = [[ONE, ZERO], [ZERO, ONE]];

    /// H, to be divided by √2.
    const H: OneQubit = [[ONE, ONE], [ONE, MINUS]];
    const S: OneQubit = [[ONE, ZERO], [ZERO, I]];

    fn tensor(left: OneQubit, right: OneQubit) -> Matrix {
        std::array::from_fn(|row| {
            std::array::from_fn(|column| {
                left[row / 2][column / 2].times(right[row % 2][column % 2])
            })
        })
    }

    #[test]
    fn the_first_qubit_is_the_left_tensor_factor() {
        let matrix = |letter| plain_matrix(letter).unwrap().matrix;
        assert_eq!(matrix(b'H'), tensor(H, IDENTITY));
        assert_eq!(matrix(b'h'), tensor(IDENTITY, H));
        assert_eq!(matrix(b'S'), tensor(S, IDENTITY));
        assert_eq!(matrix(b's'), tensor(IDENTITY, S));
    }

    #[test]
    fn every_plain_matrix_is_unitary_and_of_its_order() {
        for (letter, order) in b"HhSsZC".iter().zip([2, 2, 4, 4, 2, 4]) {
            assert!(plain_matrix(*letter).unwrap().is_unitary());
            let orders = (1..=order).filter(|&times| {
                let product = Unitary::product(&vec![*letter; times]);
                product == Unitary::IDENTITY
            });
            assert!(orders.eq([order]));
        }
    }

    #[test]
    fn letters_are_those_that_have_an_image() {
        for byte in 0..=255 {
            let has_image = crate::gate::image(byte).is_some();
            assert_eq!(plain_matrix(byte).is_some(), has_image);
        }
    }

    #[test]
    fn the_leftmost_letter_is_the_leftmost_factor() {
        let product = Unitary::product(b"HS");
        assert_eq!(product, H_FIRST.times(&S_FIRST));
        assert_ne!(product, S_FIRST.times(&H_FIRST));
    }

    #[test]
    fn bytes_have_low_bytes_first_and_signs() {
        let mut bytes = [0; UNITARY_BYTES];
        bytes[0] = 7;
        bytes[1..9].copy_from_slice(&[1, 0, 254, 255, 0x34, 0x12, 0, 128]);
        bytes[61..].copy_from_slice(&[255, 255, 2, 1]);
        let unitary = Unitary::decode(&bytes);
        assert_eq!(unitary.exponent, 7);
        assert_eq!(unitary.matrix[0][0], Number::gaussian(1, -2));
        assert_eq!(unitary.matrix[0][1], Number::gaussian(0x1234, -32768));
        assert_eq!(unitary.matrix[3][3], Number::gaussian(-1, 258));
        assert_eq!(unitary.matrix[1], [ZERO; SIZE]);
    }

    #[test]
    fn powers_of_omega_are_told_apart() {
        for letters in [b"".as_slice(), b"CHC", b"hSsZHC"] {
            let product = Unitary::product(letters);
            for power in 0..POWERS {
                let unitary = product.times_omega(power);
                assert_eq!(unitary.power_of_omega_from(&product), Some(power));
            }
            assert_eq!(product.power_of_omega_from(&CS), None);
        }
    }
}
