//! The fifteen generators, by document 01, "The fifteen generators".

use crate::matrix::{Matrix, SIZE};
use crate::operator::Operator;

/// The number of generators.
pub const GENERATOR_COUNT: usize = 15;

/// The pairs of each generator, a pair written as its two row numbers.
const TABLE: [[usize; 3]; GENERATOR_COUNT] = [
    [12, 34, 56],
    [12, 35, 46],
    [12, 36, 45],
    [13, 24, 56],
    [13, 25, 46],
    [13, 26, 45],
    [14, 23, 56],
    [14, 25, 36],
    [14, 26, 35],
    [15, 23, 46],
    [15, 24, 36],
    [15, 26, 34],
    [16, 23, 45],
    [16, 24, 35],
    [16, 25, 34],
];

/// The generators; number n stands at n − 1.
pub static GENERATORS: [Generator; GENERATOR_COUNT] = generators();

/// A generator: three pairs of rows, and its matrix, which stands at exponent 1.
#[derive(Clone, Copy, Debug)]
pub struct Generator {
    pub pairs: [(usize, usize); 3],
    pub matrix: Matrix,
}

impl Generator {
    const fn new(table_row: [usize; 3]) -> Generator {
        let mut pairs = [(0, 0); 3];
        let mut matrix = [[0; SIZE]; SIZE];
        let mut at = 0;
        while at < pairs.len() {
            let (i, j) = (table_row[at] / 10 - 1, table_row[at] % 10 - 1);
            pairs[at] = (i, j);
            (matrix[i][i], matrix[j][i]) = (1, 1);
            (matrix[i][j], matrix[j][j]) = (-1, 1);
            at += 1;
        }
        Generator { pairs, matrix }
    }

    /// The generator as an operator.
    pub const fn operator(&self) -> Operator {
        Operator {
            matrix: self.matrix,
            exponent: 1,
        }
    }

    /// Whether both rows of every pair have equal odd entries.
    pub fn fits(&self, odd: &[u8; SIZE]) -> bool {
        self.pairs.iter().all(|&(i, j)| odd[i] == odd[j])
    }
}

const fn generators() -> [Generator; GENERATOR_COUNT] {
    let mut generators = [Generator::new(TABLE[0]); GENERATOR_COUNT];
    let mut at = 1;
    while at < GENERATOR_COUNT {
        generators[at] = Generator::new(TABLE[at]);
        at += 1;
    }
    generators
}

#[cfg(test)]
mod tests {
    use super::*;

    /// Every splitting of the rows into pairs, in lexicographic order.
    fn splittings(rows: &[usize]) -> Vec<Vec<(usize, usize)>> {
        let Some((&first, rest)) = rows.split_first() else {
            return vec![vec![]];
        };
        let with_partner = |&partner: &usize| {
            let others: Vec<usize> = rest.iter().copied().filter(|&r| r != partner).collect();
            let tails = splittings(&others).into_iter();
            tails.map(move |tail| [vec![(first, partner)], tail].concat())
        };
        rest.iter().flat_map(with_partner).collect()
    }

    #[test]
    fn the_table_has_every_splitting_once_in_order() {
        let table: Vec<_> = GENERATORS.iter().map(|g| g.pairs.to_vec()).collect();
        assert_eq!(table, splittings(&[0, 1, 2, 3, 4, 5]));
        assert!(table.is_sorted_by(|a, b| a < b));
    }

    #[test]
    fn every_generator_is_a_proper_operator() {
        for generator in &GENERATORS {
            assert!(generator.operator().is_orthogonal());
            assert!(generator.operator().is_proper());
        }
    }

    #[test]
    fn columns_go_where_the_definition_says() {
        for generator in &GENERATORS {
            for (i, j) in generator.pairs {
                let column = |c: usize| generator.matrix.map(|row| row[c]);
                let unit = |r: usize, sign: i64| {
                    let mut unit = [0; SIZE];
                    unit[r] = sign;
                    unit
                };
                let sum = |a: [i64; SIZE], b: [i64; SIZE]| std::array::from_fn(|r| a[r] + b[r]);
                assert_eq!(column(i), sum(unit(i, 1), unit(j, 1)));
                assert_eq!(column(j), sum(unit(j, 1), unit(i, -1)));
            }
        }
    }
}
