//! Document 02, P3: L, the number of cuts whose rows grouped as 2 and 4.

mod walks;

use plain::file::{Kind, MAX_EXPONENT};
use plain::gate::{image, CLIFFORD_LETTERS};
use plain::generator::GENERATORS;
use plain::matrix::{scale, SIZE};
use plain::operator::Operator;
use plain::sheet::{Sheet, MAX_SHEET};
use plain::{operator_to_sheet, Cuts};

fn loose(operator: &Operator) -> u8 {
    Sheet::cut_with_loose(*operator).1
}

/// The operator at an exponent that is larger by two.
fn doubled(operator: &Operator) -> Operator {
    Operator {
        matrix: scale(&operator.matrix, 2),
        exponent: operator.exponent + 2,
    }
}

/// The number of rows with no odd entry.
fn even_rows(operator: &Operator) -> usize {
    let even = |row: &&[i64; SIZE]| row.iter().all(|entry| entry % 2 == 0);
    operator.matrix.iter().filter(even).count()
}

#[test]
fn a_cut_is_loose_exactly_if_some_row_is_even() {
    for operator in walks::walks().flatten() {
        let (sheet, all) = Sheet::cut_with_loose(operator);
        let Some(&first) = sheet.generators.first() else {
            continue;
        };
        let generator = GENERATORS[usize::from(first) - 1].operator();
        let rest = generator.inverse().times(&operator).reduced();
        assert_eq!(rest.exponent + 1, operator.exponent);
        let even = even_rows(&operator);
        assert_eq!(all - loose(&rest), u8::from(even > 0));
        assert!(even == 0 || even == 2 || even == 4);
    }
}

#[test]
fn the_last_cut_is_forced() {
    for generator in &GENERATORS {
        assert_eq!(loose(&generator.operator()), 0);
    }
    for operator in walks::walks().flatten() {
        assert!(loose(&operator) < operator.exponent.max(1));
    }
}

#[test]
fn the_negative_and_a_clifford_on_the_right_have_the_same() {
    for operator in walks::walks().flatten() {
        assert_eq!(loose(&operator.negative()), loose(&operator));
        for &letter in &CLIFFORD_LETTERS {
            let letter = image(letter).expect("a letter of the table");
            assert_eq!(loose(&operator.times(letter)), loose(&operator));
        }
    }
}

#[test]
fn a_larger_exponent_has_the_same() {
    for operator in walks::walks().flatten() {
        let cuts = Cuts {
            count: operator.exponent,
            loose: loose(&operator),
        };
        let mut larger = operator;
        while larger.exponent <= MAX_EXPONENT {
            let file = Kind::written(larger.exponent).file(&larger);
            assert_eq!(operator_to_sheet(&file, &mut [0; MAX_SHEET]), Ok(cuts));
            larger = doubled(&larger);
        }
    }
}
