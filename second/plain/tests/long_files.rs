//! Document 02, P10: operators of every count up to 60, in short files and in long ones, of which the short
//! one is written where it suffices.

mod walks;

use plain::file::{Kind, LONG_BYTES, MAX_EXPONENT, MAX_SHORT_EXPONENT, SHORT_BYTES};
use plain::matrix::scale;
use plain::operator::Operator;
use plain::sheet::MIN_SHEET;
use plain::{gates_to_operator, operator_to_gates, operator_to_sheet, sheet_to_operator};
use plain::{Cuts, Letters};

/// What an untouched byte of an output buffer holds.
const UNTOUCHED: u8 = 0xA5;

/// A call that writes an operator file.
type Multiply = fn(&[u8], &mut [u8]) -> Result<u8, u8>;

/// The operator in every kind of file, at its least exponent and at every larger one.
fn files(operator: &Operator) -> Vec<Vec<u8>> {
    let doublings = 0..=(MAX_EXPONENT - operator.exponent) / 2;
    let operators = doublings.map(|doublings| Operator {
        matrix: scale(&operator.matrix, 1 << doublings),
        exponent: operator.exponent + 2 * doublings,
    });
    let files = operators.flat_map(|operator| {
        let kinds = Kind::ALL.into_iter();
        let fitting = kinds.filter(move |kind| operator.exponent <= kind.max_exponent());
        fitting.map(move |kind| kind.file(&operator))
    });
    files.collect()
}

/// What both calls that cut make of a file, all bytes of their buffers included.
fn outcome(file: &[u8]) -> (Cuts, Vec<u8>, Letters, Vec<u8>) {
    let mut sheet = vec![UNTOUCHED; 80];
    let cuts = operator_to_sheet(file, &mut sheet).expect("an accepted operator");
    let mut list = vec![UNTOUCHED; 256 * (usize::from(cuts.count) + 1)];
    let letters = operator_to_gates(file, &mut list).expect("an accepted operator");
    (cuts, sheet, letters, list)
}

/// Some of the walks, each of which has an operator of every count.
fn operators() -> impl Iterator<Item = Operator> {
    walks::walks().step_by(12).flatten()
}

/// The call writes this file, with a buffer of every length that it fits in, and in no other.
fn assert_written(call: Multiply, input: &[u8], count: u8, file: &[u8]) {
    for room in 0..LONG_BYTES + 3 {
        let mut out = vec![UNTOUCHED; room];
        let answer = call(input, &mut out);
        if room < file.len() {
            assert_eq!(answer, Err(6));
            assert_eq!(out, vec![UNTOUCHED; room]);
        } else {
            assert_eq!(answer, Ok(count));
            assert_eq!(&out[..file.len()], file);
            assert!(out[file.len()..].iter().all(|&byte| byte == UNTOUCHED));
        }
    }
}

#[test]
fn every_file_of_an_operator_has_one_result() {
    for operator in operators() {
        let files = files(&operator);
        let first = outcome(&files[0]);
        assert_eq!(first.0.count, operator.exponent);
        for file in &files[1..] {
            assert_eq!(outcome(file), first);
        }
    }
}

#[test]
fn a_short_file_is_written_up_to_28_and_a_long_one_above() {
    for operator in operators() {
        let count = operator.exponent;
        let (len, kind) = if count <= 28 {
            (73, Kind::Short)
        } else {
            (145, Kind::Long)
        };
        let file = kind.file(&operator);
        assert_eq!(file.len(), len);
        let mut sheet = [0; 80];
        operator_to_sheet(&file, &mut sheet).expect("an accepted operator");
        let sheet = &sheet[..usize::from(count) + MIN_SHEET];
        assert_written(sheet_to_operator, sheet, count, &file);
        let mut list = vec![0; 256 * (usize::from(count) + 1)];
        let written = operator_to_gates(&file, &mut list).expect("an accepted operator");
        let said = kind.file(&operator.with_sign(written.sign));
        let list = &list[..written.letters];
        assert_written(gates_to_operator, list, count, &said);
    }
}

#[test]
fn the_file_follows_the_product_and_not_its_beginnings() {
    let mut long = 0;
    let list = b"ChH".repeat(40);
    for end in 0..=list.len() {
        let mut file = [UNTOUCHED; LONG_BYTES];
        let Ok(count) = gates_to_operator(&list[..end], &mut file) else {
            break;
        };
        let is_long = file[SHORT_BYTES..] != [UNTOUCHED; LONG_BYTES - SHORT_BYTES];
        assert_eq!(is_long, count > MAX_SHORT_EXPONENT);
        long += usize::from(is_long);
        // The letters that undo the list: seven C, one h, one H.
        let undone = list[..end].iter().rev().flat_map(|letter| match letter {
            b'C' => b"CCCCCCC".as_slice(),
            letter => std::slice::from_ref(letter),
        });
        let both: Vec<u8> = list[..end].iter().chain(undone).copied().collect();
        let mut file = [UNTOUCHED; LONG_BYTES];
        assert_eq!(gates_to_operator(&both, &mut file), Ok(0));
        assert_eq!(file[..SHORT_BYTES], Kind::Short.file(&Operator::IDENTITY));
        assert_eq!(file[SHORT_BYTES..], [UNTOUCHED; LONG_BYTES - SHORT_BYTES]);
    }
    assert!(long > 32, "{long}");
}

#[test]
fn an_improper_operator_is_refused_at_every_exponent() {
    for operator in operators() {
        let mut improper = operator;
        improper.matrix.swap(1, 4);
        for file in files(&improper) {
            assert_eq!(operator_to_sheet(&file, &mut []), Err(5));
            assert_eq!(operator_to_gates(&file, &mut []), Err(5));
        }
        for file in files(&operator) {
            assert_eq!(operator_to_sheet(&file, &mut []), Err(6));
            assert_eq!(operator_to_gates(&file, &mut []), Err(6));
        }
    }
}

#[test]
fn a_nudge_makes_an_operator_not_orthogonal_at_every_exponent() {
    for operator in operators() {
        for nudge in [-1, 1] {
            let mut nudged = operator;
            nudged.matrix[2][3] += nudge;
            let refusals = [3, 4].map(Err);
            for file in files(&nudged) {
                let answer = operator_to_sheet(&file, &mut [0; 80]);
                assert!(refusals.contains(&answer));
                assert_eq!(operator_to_gates(&file, &mut []).err(), answer.err());
            }
        }
    }
}
