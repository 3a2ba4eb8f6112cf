//! Document 02, P9: in each stretch without C as many Z as there are indices among 1 to 3 that it sends to
//! 4 to 6, and a list that multiplies to the operator or to its negative, as its sign says.

mod walks;

use plain::file::{Kind, LONG_BYTES, MAX_EXPONENT};
use plain::operator::Operator;
use plain::sheet::clifford;
use plain::stretch::{crossings, cz_gates, product, stretches};
use plain::words::Words;
use plain::{gates_to_operator, operator_to_gates};

/// Every Clifford.
fn cliffords() -> impl Iterator<Item = Operator> {
    let columns = Words::get().cliffords().map(|(columns, _)| columns);
    columns.map(clifford)
}

fn file(operator: &Operator) -> Vec<u8> {
    Kind::written(operator.exponent).file(operator)
}

/// The gate list of an operator, and its sign.
fn list(operator: &Operator) -> (Vec<u8>, u8) {
    let mut list = vec![0; 256 * (usize::from(operator.exponent) + 1)];
    let written = operator_to_gates(&file(operator), &mut list).expect("a proper operator");
    assert_eq!(written.count, operator.exponent);
    list.truncate(written.letters);
    (list, written.sign)
}

/// The file of a gate list's operator.
fn file_of_list(list: &[u8]) -> Vec<u8> {
    let mut file = vec![0; LONG_BYTES];
    let count = gates_to_operator(list, &mut file).expect("a list that is not refused");
    file.truncate(Kind::written(count).bytes());
    file
}

/// Sees to it that the gate list of an operator keeps its promise; hands it out with its sign.
fn kept(operator: &Operator) -> (Vec<u8>, u8) {
    let (list, sign) = list(operator);
    assert_eq!(file_of_list(&list), file(&operator.with_sign(sign)));
    assert_eq!(stretches(&list).count(), usize::from(operator.exponent) + 1);
    for stretch in stretches(&list) {
        assert_eq!(cz_gates(stretch), crossings(&product(stretch)));
    }
    (list, sign)
}

#[test]
fn the_identity_and_its_negative_have_no_letters() {
    assert_eq!(list(&Operator::IDENTITY), (vec![], 0));
    assert_eq!(list(&Operator::IDENTITY.negative()), (vec![], 1));
}

#[test]
fn a_clifford_has_as_many_z_as_indices_cross() {
    for operator in cliffords() {
        let (list, _) = kept(&operator);
        assert_eq!(cz_gates(&list), crossings(&operator));
    }
}

#[test]
fn every_stretch_of_every_count_has_as_many_z_as_indices_cross() {
    for operator in walks::walks().flatten() {
        kept(&operator);
    }
}

#[test]
fn the_negative_has_the_same_letters_and_the_other_sign() {
    for operator in walks::walks().flatten().chain(cliffords()) {
        let (letters, sign) = list(&operator);
        assert_eq!(list(&operator.negative()), (letters, 1 - sign));
    }
}

#[test]
fn both_signs_come_at_every_count() {
    let mut times = [[0; 2]; MAX_EXPONENT as usize + 1];
    for operator in walks::walks().flatten().chain(cliffords()) {
        let (_, sign) = list(&operator);
        times[usize::from(operator.exponent)][usize::from(sign)] += 1;
    }
    assert!(times.as_flattened().iter().all(|&times| times > 0));
}
