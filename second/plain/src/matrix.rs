//! Six-by-six matrices of whole numbers: products, halves, parities and the sign of a
//! determinant. Rows and columns are numbered from 0 here, from 1 in document 01.

/// The number of rows and of columns.
pub const SIZE: usize = 6;

/// A matrix, row by row.
pub type Matrix = [[i64; SIZE]; SIZE];

/// The identity matrix.
pub const IDENTITY: Matrix = signed_permutation([1, 2, 3, 4, 5, 6]);

/// The matrix whose column c has its only entry, the sign of `columns[c]`, in the row that
/// `columns[c]` numbers from 1.
pub const fn signed_permutation(columns: [i64; SIZE]) -> Matrix {
    let mut matrix = [[0; SIZE]; SIZE];
    let mut column = 0;
    while column < SIZE {
        let image = columns[column];
        matrix[image.unsigned_abs() as usize - 1][column] = image.signum();
        column += 1;
    }
    matrix
}

/// The product of two matrices.
pub fn multiply(left: &Matrix, right: &Matrix) -> Matrix {
    let mut product = [[0; SIZE]; SIZE];
    for row in 0..SIZE {
        for inner in 0..SIZE {
            for column in 0..SIZE {
                product[row][column] += left[row][inner] * right[inner][column];
            }
        }
    }
    product
}

/// The matrix with rows and columns exchanged.
pub fn transpose(matrix: &Matrix) -> Matrix {
    let mut transposed = [[0; SIZE]; SIZE];
    for row in 0..SIZE {
        for column in 0..SIZE {
            transposed[column][row] = matrix[row][column];
        }
    }
    transposed
}

/// The matrix with every entry multiplied by `factor`.
pub fn scale(matrix: &Matrix, factor: i64) -> Matrix {
    let mut scaled = *matrix;
    for entry in scaled.as_flattened_mut() {
        *entry *= factor;
    }
    scaled
}

/// Whether all entries are even.
pub fn is_even(matrix: &Matrix) -> bool {
    matrix.as_flattened().iter().all(|entry| entry % 2 == 0)
}

/// The matrix with every entry halved; all of them are even.
pub fn halve(matrix: &Matrix) -> Matrix {
    debug_assert!(is_even(matrix), "an odd entry has no half");
    let mut halved = *matrix;
    for entry in halved.as_flattened_mut() {
        *entry /= 2;
    }
    halved
}

/// The odd entries of a row, as six bits.
pub fn odd_bits(row: &[i64; SIZE]) -> u8 {
    let bits = row.iter().map(|entry| (entry & 1) as u8);
    bits.rev().fold(0, |bits, bit| bits << 1 | bit)
}

/// Whether the determinant of a matrix is positive that is orthogonal with the given exponent k.
///
/// The matrix times its transpose is 2 to the power k, so the square of its determinant is 2 to the power
/// 6 k, and the determinant itself 2 to the power 3 k or the negative of that. The two differ by a power of
/// two, which no odd number above 1 divides: modulo an odd prime they are still two, and which of them it is
/// can be told there, where no number grows.
pub fn has_positive_determinant(matrix: &Matrix, exponent: u8) -> bool {
    determinant_is(matrix, power_of_two(3 * u32::from(exponent)))
}

/// The modulus, an odd prime: 2 to this power, less 1.
const PRIME_BITS: u32 = 31;
const PRIME: i64 = (1 << PRIME_BITS) - 1;

/// A power of two modulo the prime; 2 to the power 31 is 1 there.
fn power_of_two(power: u32) -> i64 {
    1 << (power % PRIME_BITS)
}

/// Whether the determinant is `expected` modulo the prime, which does not divide the determinant.
///
/// The matrix is brought to a triangle. What that does to its determinant is done to `expected`: a row that
/// is multiplied by the pivot multiplies it, two rows that change places turn its sign. In the end the
/// determinant is the product of the diagonal.
fn determinant_is(matrix: &Matrix, mut expected: i64) -> bool {
    let mut matrix = matrix.map(|row| row.map(|entry| entry.rem_euclid(PRIME)));
    let mut product = 1;
    for step in 0..SIZE {
        let pivot_row = (step..SIZE).find(|&row| matrix[row][step] != 0);
        let pivot_row = pivot_row.expect("the prime does not divide the determinant");
        if pivot_row != step {
            matrix.swap(pivot_row, step);
            expected = PRIME - expected;
        }
        let pivot = matrix[step][step];
        eliminate(&mut matrix, step);
        for _ in step + 1..SIZE {
            expected = expected * pivot % PRIME;
        }
        product = product * pivot % PRIME;
    }
    product == expected
}

/// Multiplies the rows below the pivot by it and clears its column there, modulo the prime; entries are from
/// 0 to below it.
fn eliminate(matrix: &mut Matrix, step: usize) {
    let pivot_row = matrix[step];
    for row in &mut matrix[step + 1..] {
        let first = row[step];
        for column in step..SIZE {
            let crossed = row[column] * pivot_row[step] - first * pivot_row[column];
            row[column] = crossed.rem_euclid(PRIME);
        }
    }
}

#[cfg(test)]
mod tests {
    use super::*;
    use crate::file::MAX_EXPONENT;
    use crate::generator::GENERATORS;

    /// The largest exponent for which a determinant can be expanded in `i128`: it is a sum of 720 products of
    /// six entries, each product at most 2 to the power 3 k.
    const MAX_EXPANDED: u8 = 39;

    /// The determinant by expansion along the first row, whatever the number of rows is.
    fn expanded(rows: &[Vec<i128>]) -> i128 {
        let Some((first, rest)) = rows.split_first() else {
            return 1;
        };
        let term = |struck: usize| {
            let minor: Vec<Vec<i128>> = rest.iter().map(|row| without(row, struck)).collect();
            let sign = if struck.is_multiple_of(2) { 1 } else { -1 };
            sign * first[struck] * expanded(&minor)
        };
        (0..first.len()).map(term).sum()
    }

    fn without(row: &[i128], struck: usize) -> Vec<i128> {
        [&row[..struck], &row[struck + 1..]].concat()
    }

    fn determinant(matrix: &Matrix) -> i128 {
        let rows = matrix.map(|row| row.map(i128::from).to_vec());
        expanded(&rows)
    }

    /// Orthogonal matrices with their exponents, through all of them, whose determinants are positive.
    fn products() -> impl Iterator<Item = (Matrix, u8)> {
        let steps = 0..usize::from(MAX_EXPONENT);
        let products = steps.scan(IDENTITY, |product, step| {
            let generator = &GENERATORS[(step * step + 3 * step) % GENERATORS.len()];
            *product = multiply(product, &generator.matrix);
            Some((*product, step as u8 + 1))
        });
        [(IDENTITY, 0)].into_iter().chain(products)
    }

    #[test]
    fn determinants_of_known_matrices() {
        let rows = |rows: &[&[i128]]| rows.iter().map(|row| row.to_vec()).collect::<Vec<_>>();
        assert_eq!(expanded(&rows(&[&[3, 1], &[4, 2]])), 2);
        assert_eq!(expanded(&rows(&[&[0, 1], &[1, 0]])), -1);
        assert_eq!(expanded(&rows(&[&[0, 2, 1], &[0, 1, 5], &[3, 0, 0]])), 27);
        assert_eq!(expanded(&rows(&[&[1, 2, 3], &[4, 5, 6], &[7, 8, 9]])), 0);
        assert_eq!(determinant(&scale(&IDENTITY, 16384)), 1 << 84);
    }

    #[test]
    fn a_determinant_modulo_the_prime_is_that_of_its_expansion() {
        let mut seed = 1i64;
        for _ in 0..1000 {
            let matrix = [[0; SIZE]; SIZE].map(|row: [i64; SIZE]| {
                row.map(|_| {
                    seed = (seed * 48_271) % PRIME;
                    seed % 7 - 3
                })
            });
            let expected = determinant(&matrix);
            if expected % i128::from(PRIME) != 0 {
                let expected = expected.rem_euclid(i128::from(PRIME)) as i64;
                assert!(determinant_is(&matrix, expected));
                assert!(!determinant_is(&matrix, PRIME - expected));
                assert!(!determinant_is(&matrix, expected % PRIME + 1));
            }
        }
    }

    #[test]
    fn powers_of_two_are_those_modulo_the_prime() {
        let mut doubled = 1;
        for power in 0..=3 * u32::from(MAX_EXPONENT) {
            assert_eq!(power_of_two(power), doubled);
            doubled = 2 * doubled % PRIME;
        }
    }

    #[test]
    fn the_sign_of_the_determinant_is_told_at_every_exponent() {
        for (matrix, exponent) in products() {
            assert!(has_positive_determinant(&matrix, exponent));
            assert!(has_positive_determinant(&scale(&matrix, -1), exponent));
            assert!(has_positive_determinant(&transpose(&matrix), exponent));
            for row in 0..SIZE {
                let flipped = negate_row(&matrix, row);
                assert!(!has_positive_determinant(&flipped, exponent));
                let mut swapped = matrix;
                swapped.swap(row, (row + 1) % SIZE);
                assert!(!has_positive_determinant(&swapped, exponent));
            }
            if exponent <= MAX_EXPANDED {
                assert_eq!(determinant(&matrix), 1 << (3 * exponent));
                let flipped = negate_row(&matrix, usize::from(exponent) % SIZE);
                assert_eq!(determinant(&flipped), -1 << (3 * exponent));
            }
        }
    }

    #[test]
    fn the_largest_entries_do_not_overflow() {
        let largest = scale(&IDENTITY, 1 << (MAX_EXPONENT / 2));
        assert!(has_positive_determinant(&largest, MAX_EXPONENT));
        let flipped = negate_row(&largest, 3);
        assert!(!has_positive_determinant(&flipped, MAX_EXPONENT));
    }

    #[test]
    fn odd_bits_number_the_columns_from_the_lowest_bit() {
        assert_eq!(odd_bits(&[1, -1, 0, 2, -3, -2]), 0b010011);
    }

    fn negate_row(matrix: &Matrix, row: usize) -> Matrix {
        let mut negated = *matrix;
        negated[row] = negated[row].map(|entry| -entry);
        negated
    }
}
