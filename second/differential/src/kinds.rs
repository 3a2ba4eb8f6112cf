//! An operator in both kinds of file and at several exponents: one result, all bytes of the output included,
//! and where it is refused, one refusal.

use plain::file::{Kind, MAX_EXPONENT};
use plain::gate::LETTERS_PER_COUNT;
use plain::matrix::SIZE;
use plain::operator::Operator;
use plain::sheet::MIN_SHEET;
use samples::Random;

use crate::call::Call;
use crate::judge::Judge;
use crate::trials::same;

/// How many random operators there are of each count.
const OPERATORS: usize = 12;

/// How many larger exponents each is given in either kind.
const LARGER: usize = 2;

/// Changes that no exponent makes good.
const CHANGES: [fn(&mut Random, &mut Operator); 2] = [swap_rows, copy_row];

/// Runs both calls that read operator files on operators of every count.
pub fn run(judge: &mut Judge) {
    let mut random = Random::new(12);
    for count in 0..=MAX_EXPONENT {
        for _ in 0..OPERATORS {
            let mut operator = samples::operator(&mut random, count);
            have_one_result(judge, &files(&mut random, &operator), count);
            random.pick(&CHANGES)(&mut random, &mut operator);
            have_one_result(judge, &files(&mut random, &operator), count);
        }
    }
}

/// The files of an operator at its least exponent, and at larger ones, in each kind that has them.
fn files(random: &mut Random, operator: &Operator) -> Vec<Vec<u8>> {
    let mut files = Vec::new();
    for kind in Kind::ALL {
        if operator.exponent <= kind.max_exponent() {
            files.push(kind.file(operator));
            for _ in 0..LARGER {
                let larger = samples::inflated(random, operator, kind);
                files.push(kind.file(&larger));
            }
        }
    }
    files
}

/// Ends the program unless both calls make the same of all files, with a buffer that is long enough for the
/// count, with one that lacks a byte, and with none.
fn have_one_result(judge: &mut Judge, files: &[Vec<u8>], count: u8) {
    let count = usize::from(count);
    for (call, needed) in [
        (Call::OperatorToSheet, count + MIN_SHEET),
        (Call::OperatorToGates, LETTERS_PER_COUNT * (count + 1)),
    ] {
        for room in [needed, needed - 1, 0] {
            let first = judge.run_with(call, &files[0], room);
            for file in &files[1..] {
                same(call, file, &judge.run_with(call, file, room), &first);
            }
        }
    }
}

/// Leaves it orthogonal, and makes it improper.
fn swap_rows(random: &mut Random, operator: &mut Operator) {
    let (i, j) = random.two_below(SIZE);
    operator.matrix.swap(i, j);
}

/// Makes it not orthogonal.
fn copy_row(random: &mut Random, operator: &mut Operator) {
    let (i, j) = random.two_below(SIZE);
    operator.matrix[i] = operator.matrix[j];
}
