//! Sheets: the rule of cutting, by document 01, "The rule of cutting", and document 02, P3, and their
//! bytes, by document 02, P2 and P4.

use crate::file::MAX_EXPONENT;
use crate::generator::{GENERATORS, GENERATOR_COUNT};
use crate::matrix::{
    halve, multiply, odd_bits, scale, signed_permutation, transpose, Matrix, SIZE,
};
use crate::operator::Operator;
use crate::refusal;

/// The shortest sheet, that of a Clifford: the first byte, six columns and the last byte.
pub const MIN_SHEET: usize = SIZE + 2;

/// The longest sheet.
pub const MAX_SHEET: usize = MAX_EXPONENT as usize + MIN_SHEET;

/// The first byte is this much more than the count …
pub const ABOVE_COUNT: u8 = 64;

/// … and this much more than the length.
pub const ABOVE_LENGTH: usize = 56;

/// A column byte for −1 is this much more than the row.
pub const MINUS: u8 = 128;

/// Generator numbers in order, the columns of a Clifford whose column 1 is positive, and whether the
/// operator is the negative of their product.
#[derive(Clone, Debug, PartialEq, Eq)]
pub struct Sheet {
    pub generators: Vec<u8>,
    pub columns: [u8; SIZE],
    pub negative: bool,
}

impl Sheet {
    /// Cuts a proper operator at its least exponent.
    pub fn cut(operator: Operator) -> Sheet {
        Sheet::cut_with_loose(operator).0
    }

    /// The same, with the number of cuts whose rows grouped as 2 and 4.
    pub fn cut_with_loose(operator: Operator) -> (Sheet, u8) {
        let mut generators = Vec::with_capacity(usize::from(operator.exponent));
        let mut loose = 0;
        let mut rest = operator.matrix;
        for _ in 0..operator.exponent {
            let odd = rest.each_ref().map(odd_bits);
            let taken = first_generator(&odd);
            rest = halve(&multiply(&transpose(&GENERATORS[taken].matrix), &rest));
            generators.push(taken as u8 + 1);
            loose += u8::from(is_loose(&odd));
        }
        let negative = is_negative(columns(&rest)[0]);
        let sheet = Sheet {
            generators,
            columns: columns(&signed(&rest, negative)),
            negative,
        };
        (sheet, loose)
    }

    /// Reads the bytes of a sheet, without asking whether it is the one of its operator.
    pub fn read(bytes: &[u8]) -> Result<Sheet, u8> {
        if !(MIN_SHEET..=MAX_SHEET).contains(&bytes.len()) {
            return Err(refusal::SHEET_LENGTH);
        }
        if usize::from(bytes[0]) != bytes.len() + ABOVE_LENGTH {
            return Err(refusal::SHEET_COUNT);
        }
        let (last, bytes) = bytes[1..].split_last().expect("at least seven bytes");
        let (generators, columns) = bytes.split_last_chunk().expect("at least six bytes");
        if !generators.iter().all(is_generator) || !columns.iter().all(is_column) {
            return Err(refusal::SHEET_BYTE);
        }
        let clifford = clifford(columns);
        if !clifford.is_orthogonal() || !clifford.is_proper() {
            return Err(refusal::NO_CLIFFORD);
        }
        if *last > 1 || is_negative(columns[0]) {
            return Err(refusal::SHEET_SIGN);
        }
        Ok(Sheet {
            generators: generators.to_vec(),
            columns: *columns,
            negative: *last == 1,
        })
    }

    /// Writes the bytes of the sheet over the whole of `out`, which has its length.
    pub fn write(&self, out: &mut [u8]) {
        let (first, bytes) = out.split_first_mut().expect("at least eight bytes");
        let (last, bytes) = bytes.split_last_mut().expect("at least seven bytes");
        let (generators, columns) = bytes.split_at_mut(self.generators.len());
        *first = ABOVE_COUNT + self.count();
        generators.copy_from_slice(&self.generators);
        columns.copy_from_slice(&self.columns);
        *last = u8::from(self.negative);
    }

    /// The product of the generators in order, the Clifford and the sign.
    pub fn operator(&self) -> Operator {
        let factors = self.generators.iter();
        let factors = factors.map(|&number| GENERATORS[usize::from(number) - 1].operator());
        let product = factors.fold(Operator::IDENTITY, |product, factor| product.times(&factor));
        product.times(&self.rest())
    }

    /// The Clifford that remains when the generators are taken: that of the columns, times the sign.
    pub fn rest(&self) -> Operator {
        Operator {
            matrix: signed(&clifford(&self.columns).matrix, self.negative),
            exponent: 0,
        }
    }

    /// The number of generators.
    pub fn count(&self) -> u8 {
        self.generators.len() as u8
    }

    /// The number of bytes.
    pub fn size(&self) -> usize {
        self.generators.len() + MIN_SHEET
    }
}

/// The lowest generator whose every pair has rows with equal odd entries, counted from 0.
fn first_generator(odd: &[u8; SIZE]) -> usize {
    let fitting = GENERATORS.iter().position(|generator| generator.fits(odd));
    fitting.expect("the rows group as 2, 2, 2 or as 2 and 4")
}

/// Whether rows with equal odd entries group as 2 and 4.
fn is_loose(odd: &[u8; SIZE]) -> bool {
    let mut sizes = odd.map(|bits| odd.iter().filter(|&&other| other == bits).count());
    sizes.sort_unstable();
    sizes == [2, 2, 4, 4, 4, 4]
}

/// The matrix, or its negative.
fn signed(matrix: &Matrix, negative: bool) -> Matrix {
    scale(matrix, if negative { -1 } else { 1 })
}

/// The matrix that six column bytes describe, at exponent 0, whether or not it is a Clifford.
pub fn clifford(columns: &[u8; SIZE]) -> Operator {
    let row = |byte: u8| match byte.checked_sub(MINUS) {
        Some(row) => -i64::from(row),
        None => i64::from(byte),
    };
    Operator {
        matrix: signed_permutation(columns.map(row)),
        exponent: 0,
    }
}

/// The column bytes of a Clifford.
pub fn columns(clifford: &Matrix) -> [u8; SIZE] {
    std::array::from_fn(|column| {
        let row = (0..SIZE).find(|&row| clifford[row][column] != 0);
        let row = row.expect("a Clifford has an entry in each column");
        let minus = clifford[row][column] < 0;
        row as u8 + 1 + if minus { MINUS } else { 0 }
    })
}

fn is_generator(byte: &u8) -> bool {
    (1..=GENERATOR_COUNT).contains(&usize::from(*byte))
}

fn is_column(byte: &u8) -> bool {
    (1..=SIZE).contains(&usize::from(byte % MINUS))
}

/// Whether a column has −1.
fn is_negative(column: u8) -> bool {
    column > MINUS
}
