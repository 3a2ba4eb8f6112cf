//! Round trips: every product of up to three generators, and deep ones of every count.

mod walks;

use plain::file::{Kind, MAX_EXPONENT};
use plain::generator::GENERATORS;
use plain::operator::Operator;
use plain::sheet::{Sheet, MAX_SHEET, MINUS, MIN_SHEET};
use plain::words::Words;
use plain::{gates_to_operator, operator_to_gates, operator_to_sheet, sheet_to_operator};

/// Operator to sheet and to gates, and both back; answers the count.
fn round_trip(operator: &Operator) -> u8 {
    let kind = Kind::written(operator.exponent);
    let file = kind.file(operator);
    let mut sheet = [0; MAX_SHEET];
    let cuts = operator_to_sheet(&file, &mut sheet).expect("a proper operator");
    let count = cuts.count;
    assert_eq!(count, operator.exponent);
    assert!(cuts.loose < count.max(1));

    let mut back = vec![0; kind.bytes()];
    let sheet = &sheet[..usize::from(count) + MIN_SHEET];
    assert_eq!(sheet_to_operator(sheet, &mut back), Ok(count));
    assert_eq!(back, file);

    let mut list = vec![0; 256 * (usize::from(count) + 1)];
    let written = operator_to_gates(&file, &mut list).unwrap();
    assert_eq!((written.count, written.loose), (count, cuts.loose));
    let list = &list[..written.letters];
    let mut back = vec![0; kind.bytes()];
    assert_eq!(gates_to_operator(list, &mut back), Ok(count));
    assert_eq!(back, kind.file(&operator.with_sign(written.sign)));
    count
}

#[test]
fn every_clifford() {
    let cliffords = Words::get().cliffords().map(|(columns, _)| *columns);
    for columns in cliffords.filter(|columns| columns[0] < MINUS) {
        for negative in [false, true] {
            let sheet = Sheet {
                generators: vec![],
                columns,
                negative,
            };
            assert_eq!(Sheet::cut(sheet.operator()), sheet);
            assert_eq!(round_trip(&sheet.operator()), 0);
        }
    }
}

#[test]
fn every_product_of_three_generators() {
    let operators = GENERATORS.each_ref().map(|generator| generator.operator());
    for first in &operators {
        for second in &operators {
            let two = first.times(second).reduced();
            round_trip(&two);
            for third in &operators {
                round_trip(&two.times(third).reduced());
            }
        }
    }
}

#[test]
fn walks_through_every_count() {
    for walk in walks::walks() {
        for (count, operator) in (0..=MAX_EXPONENT).zip(&walk) {
            assert_eq!(round_trip(operator), count);
        }
    }
}
