//! Operators that grow by a generator and a Clifford letter at a time, through every count.

use plain::file::MAX_EXPONENT;
use plain::gate::{image, CLIFFORD_LETTERS};
use plain::generator::GENERATORS;
use plain::operator::Operator;

/// An operator of each count from 0 up, for each of some ways to walk.
pub fn walks() -> impl Iterator<Item = Vec<Operator>> {
    (0..60).map(walk)
}

fn walk(stride: usize) -> Vec<Operator> {
    let mut operator = Operator::IDENTITY;
    let mut passed = vec![operator];
    let mut step = stride;
    while operator.exponent < MAX_EXPONENT {
        step = step * 5 + stride + 1;
        let generator = &GENERATORS[step / 7 % GENERATORS.len()];
        let letter = CLIFFORD_LETTERS[step / 11 % CLIFFORD_LETTERS.len()];
        let letter = image(letter).expect("a letter of the table");
        let longer = operator
            .times(&generator.operator())
            .times(letter)
            .reduced();
        if longer.exponent > operator.exponent {
            operator = longer;
            passed.push(operator);
        }
        step %= 9973;
    }
    passed
}
