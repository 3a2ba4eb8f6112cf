//! An operator and its negative into gates: the same letters, and opposite signs.

use plain::file::MAX_EXPONENT;
use plain::gate::LETTERS_PER_COUNT;
use plain::operator::Operator;
use samples::Random;

use crate::call::{Answer, Call};
use crate::judge::Judge;
use crate::trials::same;

/// How many random operators there are of each count.
const OPERATORS: usize = 20;

/// Runs the call that cuts into gates on operators of every count and on their negatives.
pub fn run(judge: &mut Judge) {
    let mut random = Random::new(10);
    for count in 0..=MAX_EXPONENT {
        for _ in 0..OPERATORS {
            let operator = samples::operator(&mut random, count);
            let (list, sign) = gates(judge, &operator);
            let negative = gates(judge, &operator.negative());
            let file = samples::file(&operator);
            same(Call::OperatorToGates, &file, &negative, &(list, 1 - sign));
        }
    }
}

/// The letters that the library writes for an operator, and their sign.
fn gates(judge: &mut Judge, operator: &Operator) -> (Vec<u8>, u8) {
    let room = LETTERS_PER_COUNT * (usize::from(operator.exponent) + 1);
    let file = samples::file(operator);
    match judge.run_with(Call::OperatorToGates, &file, room) {
        (Answer::Count { sign, .. }, list) => (list, sign),
        (answer, _) => unreachable!("an accepted operator, and {answer:?}"),
    }
}
