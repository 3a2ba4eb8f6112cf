//! Document 02, P2: M and −M are one block. Two operators agree up to sign exactly when their sheets
//! agree before the last byte.

mod walks;

use std::collections::HashMap;

use plain::file::{Kind, LONG_BYTES};
use plain::gate::clifford;
use plain::matrix::SIZE;
use plain::operator::Operator;
use plain::sheet::{self, Sheet, MINUS};
use plain::sheet_to_operator;
use plain::words::Words;

/// The number of Cliffords.
const CLIFFORDS: usize = 23_040;

/// The sheet's bytes before the last one, and the last one.
fn sheet(operator: &Operator) -> (Vec<u8>, u8) {
    let sheet = Sheet::cut(*operator);
    let mut bytes = vec![0; sheet.size()];
    sheet.write(&mut bytes);
    let last = bytes.pop().expect("a sheet has a last byte");
    (bytes, last)
}

/// The file of the operator of a sheet.
fn read(beginning: &[u8], last: u8) -> Vec<u8> {
    let mut file = vec![0; LONG_BYTES];
    let count = sheet_to_operator(&[beginning, &[last]].concat(), &mut file);
    let count = count.expect("a sheet of an operator");
    file.truncate(Kind::written(count).bytes());
    file
}

fn file(operator: &Operator) -> Vec<u8> {
    Kind::written(operator.exponent).file(operator)
}

/// Every Clifford, whether its column 1 is positive or negative.
fn cliffords() -> impl Iterator<Item = Operator> {
    let columns = Words::get().cliffords().map(|(columns, _)| columns);
    columns.map(sheet::clifford)
}

/// The operator with every even number of its columns negated.
fn with_columns_negated(operator: &Operator) -> impl Iterator<Item = Operator> + '_ {
    let even = (0u32..1 << SIZE).filter(|negated| negated.count_ones().is_multiple_of(2));
    even.map(|negated| {
        let sign = |column: usize| if negated >> column & 1 == 1 { -1 } else { 1 };
        let columns = std::array::from_fn(|column| sign(column) * (column as i64 + 1));
        operator.times(&clifford(columns))
    })
}

/// Sees to it that two of the operators agree up to sign exactly when their sheets agree before the
/// last byte. Answers in how many ways the sheets begin.
fn beginnings(operators: impl Iterator<Item = Operator>) -> usize {
    let mut beginnings = HashMap::new();
    let mut blocks = HashMap::new();
    for operator in operators {
        let one_of_both = operator.matrix.max(operator.negative().matrix);
        let block = (operator.exponent, one_of_both);
        let (beginning, _) = sheet(&operator);
        let earlier = beginnings.entry(block).or_insert(beginning.clone());
        assert_eq!(*earlier, beginning);
        let earlier = blocks.entry(beginning).or_insert(block);
        assert_eq!(*earlier, block);
    }
    blocks.len()
}

#[test]
fn the_negative_differs_in_the_last_byte_alone() {
    for operator in walks::walks().flatten().chain(cliffords()) {
        let (beginning, last) = sheet(&operator);
        assert_eq!(sheet(&operator.negative()), (beginning.clone(), 1 - last));
        assert_eq!(read(&beginning, last), file(&operator));
        assert_eq!(read(&beginning, 1 - last), file(&operator.negative()));
    }
}

#[test]
fn a_clifford_says_the_sign_of_its_column_1() {
    for operator in cliffords() {
        let column_1: i64 = operator.matrix.iter().map(|row| row[0]).sum();
        let (beginning, last) = sheet(&operator);
        assert!(beginning[1] < MINUS);
        assert_eq!(last, if column_1 < 0 { 1 } else { 0 });
    }
}

#[test]
fn every_clifford_shares_its_beginning_with_its_negative_alone() {
    assert_eq!(beginnings(cliffords()), CLIFFORDS / 2);
}

#[test]
fn every_operator_shares_its_beginning_with_its_negative_alone() {
    for operators in walks::walks() {
        for operator in &operators {
            assert_eq!(beginnings(with_columns_negated(operator)), 16);
        }
    }
    let operators: Vec<Operator> = walks::walks().flatten().collect();
    beginnings(operators.iter().flat_map(with_columns_negated));
}
