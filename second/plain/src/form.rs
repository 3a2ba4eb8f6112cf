//! The six-by-six form of a unitary, by source document 001, section 3: how U acts on antisymmetric A by
//! U A Uᵀ, in a basis for which the forms of the letters, times a power of ω, are document 01's images up to
//! sign. The fourth and the fifth matrix of the basis are not those of the source's equation 8, with which
//! no power of ω makes the form of h real.

use crate::matrix::SIZE;
use crate::omega::{Number, POWERS};
use crate::operator::Operator;
use crate::unitary::{self, multiply, transpose, Unitary};

const I: Number = Number::I;
const ONE: Number = Number::ONE;
const MINUS_I: Number = Number::I.negative();
const MINUS_ONE: Number = Number::ONE.negative();

/// For each of the six matrices its entries above the diagonal, with their rows and columns from 0; each
/// entry is to be divided by √2.
const BASIS: [[(usize, usize, Number); 2]; SIZE] = [
    [(0, 1, I), (2, 3, MINUS_I)],
    [(0, 1, ONE), (2, 3, ONE)],
    [(0, 3, MINUS_I), (1, 2, I)],
    [(0, 2, MINUS_ONE), (1, 3, ONE)],
    [(0, 2, I), (1, 3, I)],
    [(0, 3, ONE), (1, 2, ONE)],
];

/// The entries of a form, row by row.
type Entries = [[Number; SIZE]; SIZE];

/// The form, at its least exponent, times a power of ω that makes it real. Two powers do, and the forms for
/// them are each other's negatives; which of the two is answered is left open.
pub fn of_unitary(unitary: &Unitary) -> Operator {
    let entries = entries(&unitary.matrix);
    let mut forms = (0..POWERS).filter_map(|power| {
        let factor = Number::omega_to(power);
        let turned = entries.map(|row| row.map(|entry| entry.times(factor)));
        real(&turned, 2 * unitary.exponent + 2)
    });
    forms.next().expect("a power of omega makes the form real")
}

/// The form of a matrix; it is to be halved for the two divisions of the basis by √2.
fn entries(matrix: &unitary::Matrix) -> Entries {
    let images = BASIS.map(|basis| {
        let image = multiply(matrix, &antisymmetric(&basis));
        multiply(&image, &transpose(matrix))
    });
    BASIS.map(|basis| images.map(|image| along(&basis, &image)))
}

fn antisymmetric(above: &[(usize, usize, Number)]) -> unitary::Matrix {
    let mut matrix = [[Number::ZERO; unitary::SIZE]; unitary::SIZE];
    for &(row, column, entry) in above {
        matrix[row][column] = entry;
        matrix[column][row] = entry.negative();
    }
    matrix
}

/// How much of a matrix of the basis there is in an antisymmetric matrix.
fn along(basis: &[(usize, usize, Number)], image: &unitary::Matrix) -> Number {
    let terms = basis.iter();
    let terms = terms.map(|&(row, column, entry)| entry.conjugate().times(image[row][column]));
    terms.fold(Number::ZERO, Number::plus)
}

/// The operator of these entries and this exponent; none if an entry is not real. Of real entries m + n√2
/// either all n are 0 or all m, and in the second case √2 is divided out.
fn real(entries: &Entries, exponent: u8) -> Option<Operator> {
    let (mut whole, mut times_root_two) = ([[0; SIZE]; SIZE], [[0; SIZE]; SIZE]);
    for row in 0..SIZE {
        for column in 0..SIZE {
            (whole[row][column], times_root_two[row][column]) = entries[row][column].real()?;
        }
    }
    let none = [[0; SIZE]; SIZE];
    let (matrix, exponent) = if times_root_two == none {
        (whole, exponent)
    } else {
        assert_eq!(whole, none, "a form has no sums of both kinds");
        (times_root_two, exponent - 1)
    };
    Some(Operator { matrix, exponent }.reduced())
}

#[cfg(test)]
mod tests {
    use super::*;
    use crate::gate::image;
    use crate::matrix::IDENTITY;
    use crate::stretch::product;

    /// The inner product of two antisymmetric matrices, times 2.
    fn inner(left: &unitary::Matrix, right: &unitary::Matrix) -> Number {
        let mut sum = Number::ZERO;
        for row in 0..unitary::SIZE {
            for column in row + 1..unitary::SIZE {
                sum = sum.plus(left[row][column].conjugate().times(right[row][column]));
            }
        }
        sum
    }

    #[test]
    fn the_basis_is_orthonormal() {
        let matrices = BASIS.map(|basis| antisymmetric(&basis));
        for (row, left) in matrices.iter().enumerate() {
            for (column, right) in matrices.iter().enumerate() {
                let twice = Number::gaussian(2 * IDENTITY[row][column], 0);
                assert_eq!(inner(left, right), twice);
            }
        }
    }

    #[test]
    fn the_form_of_a_letter_is_its_image_up_to_sign() {
        for letter in *b"HhSsZC" {
            let form = of_unitary(&Unitary::product(&[letter]));
            let image = *image(letter).unwrap();
            assert!(form == image || form == image.negative(), "{letter}");
        }
    }

    #[test]
    fn the_form_of_a_product_is_that_of_the_images_up_to_sign() {
        for list in [b"".as_slice(), b"HhSsZC", b"CHCsZhCSCHZhC", b"ChHChHChHC"] {
            let form = of_unitary(&Unitary::product(list));
            let product = product(list).reduced();
            assert!(form == product || form == product.negative());
        }
    }

    #[test]
    fn a_power_of_omega_changes_at_most_the_sign() {
        for list in [b"".as_slice(), b"H", b"CHCsZhC"] {
            let unitary = Unitary::product(list);
            let form = of_unitary(&unitary);
            for power in 0..POWERS {
                let turned = of_unitary(&unitary.times_omega(power));
                assert!(turned == form || turned == form.negative());
            }
        }
    }
}
