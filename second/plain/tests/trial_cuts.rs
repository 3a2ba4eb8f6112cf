//! The cases of document 01, "Trial cuts", with the first byte of document 02, P4, the last byte of P2
//! and the L of P3, the example of `cut`, in both directions, the sign of a gate list of P9, and the orders
//! of document 02, P1; limits are those of P10, and each operator is cut from both kinds of file.

use plain::file::{Kind, LONG_BYTES, SHORT_BYTES};
use plain::matrix::{scale, Matrix, IDENTITY};
use plain::operator::Operator;
use plain::{
    gates_to_operator, operator_to_gates, operator_to_sheet, sheet_to_operator, states_to_order,
    Cuts,
};

/// What an untouched byte of an output buffer holds.
const UNTOUCHED: u8 = 0xA5;

const CUT_EXAMPLE: Matrix = [
    [1, 1, 1, 0, 0, -1],
    [-1, -1, 1, 0, 0, -1],
    [1, -1, -1, 0, 0, -1],
    [0, 0, 0, 0, -2, 0],
    [0, 0, 0, 2, 0, 0],
    [1, -1, 1, 0, 0, 1],
];

const CUT_EXAMPLE_SHEET: &[u8] = &[66, 3, 13, 3, 130, 1, 4, 5, 6, 0];
const IDENTITY_SHEET: &[u8] = &[64, 1, 2, 3, 4, 5, 6, 0];
const MINUS_IDENTITY_SHEET: &[u8] = &[64, 1, 2, 3, 4, 5, 6, 1];
const C_SHEET: &[u8] = &[65, 3, 1, 2, 3, 4, 5, 6, 0];
const CZ_SHEET: &[u8] = &[64, 2, 129, 6, 5, 132, 131, 0];

/// The operator's file of each kind.
fn files(matrix: Matrix, exponent: u8) -> [Vec<u8>; 2] {
    Kind::ALL.map(|kind| kind.file(&Operator { matrix, exponent }))
}

/// The file that is written for the operator.
fn file(matrix: Matrix, exponent: u8) -> Vec<u8> {
    Kind::written(exponent).file(&Operator { matrix, exponent })
}

/// The file of a gate list's operator.
fn file_of_list(list: &[u8]) -> Vec<u8> {
    let mut file = vec![UNTOUCHED; LONG_BYTES];
    let count = gates_to_operator(list, &mut file).expect("a list that is not refused");
    file.truncate(Kind::written(count).bytes());
    file
}

/// The operator has this sheet and this L, the sheet this operator, and its gate list leads back to it or,
/// where its sign says so, to its negative.
fn assert_cut(file: &[u8], least: &[u8], sheet: &[u8], loose: u8) {
    let count = sheet.len() as u8 - 8;
    let cuts = Cuts { count, loose };
    let mut out = [UNTOUCHED; 72];
    assert_eq!(operator_to_sheet(file, &mut out), Ok(cuts));
    assert_eq!(&out[..sheet.len()], sheet);
    assert!(out[sheet.len()..].iter().all(|&byte| byte == UNTOUCHED));

    let mut back = [UNTOUCHED; LONG_BYTES + 1];
    assert_eq!(sheet_to_operator(sheet, &mut back), Ok(count));
    assert_eq!(&back[..least.len()], least);
    assert!(back[least.len()..].iter().all(|&byte| byte == UNTOUCHED));

    let mut list = vec![UNTOUCHED; 256 * (usize::from(count) + 1)];
    let written = operator_to_gates(file, &mut list).unwrap();
    assert_eq!((written.count, written.loose), (count, loose));
    let list = &list[..written.letters];
    let operator = Operator::read(file).expect("an accepted operator");
    let said = operator.with_sign(written.sign);
    assert_eq!(file_of_list(list), self::file(said.matrix, said.exponent));
    let cs_gates = list.iter().filter(|&&letter| letter == b'C');
    assert_eq!(cs_gates.count(), usize::from(count));
}

/// The operator, in both kinds of file, has this sheet and this L.
fn assert_cut_of_both(matrix: Matrix, exponent: u8, least: &[u8], sheet: &[u8], loose: u8) {
    for file in files(matrix, exponent) {
        assert_cut(&file, least, sheet, loose);
    }
}

fn assert_list(list: &[u8], sheet: &[u8], loose: u8) {
    let file = file_of_list(list);
    let operator = Operator::read(&file).expect("an accepted operator");
    assert_eq!(file[0], operator.exponent);
    assert_cut_of_both(operator.matrix, operator.exponent, &file, sheet, loose);
}

/// The operator is refused, and no byte is written.
fn assert_refused(file: &[u8], refusal: u8) {
    let mut out = [UNTOUCHED; 256 * 61];
    assert_eq!(operator_to_sheet(file, &mut out), Err(refusal));
    assert_eq!(operator_to_gates(file, &mut out), Err(refusal));
    assert_eq!(out, [UNTOUCHED; 256 * 61]);
}

/// The same in both kinds of file.
fn assert_both_refused(matrix: Matrix, exponent: u8, refusal: u8) {
    for file in files(matrix, exponent) {
        assert_refused(&file, refusal);
    }
}

fn assert_sheet_refused(sheet: &[u8], refusal: u8) {
    let mut out = [UNTOUCHED; LONG_BYTES];
    assert_eq!(sheet_to_operator(sheet, &mut out), Err(refusal));
    assert_eq!(out, [UNTOUCHED; LONG_BYTES]);
}

fn assert_list_refused(list: &[u8], refusal: u8) {
    let mut out = [UNTOUCHED; LONG_BYTES];
    assert_eq!(gates_to_operator(list, &mut out), Err(refusal));
    assert_eq!(out, [UNTOUCHED; LONG_BYTES]);
}

#[test]
fn identity_at_every_exponent() {
    let least = file(IDENTITY, 0);
    for doublings in [0, 1, 14] {
        let matrix = scale(&IDENTITY, 1 << doublings);
        assert_cut_of_both(matrix, 2 * doublings, &least, IDENTITY_SHEET, 0);
    }
    for doublings in [15, 30] {
        let matrix = scale(&IDENTITY, 1 << doublings);
        let file = file(matrix, 2 * doublings);
        assert_cut(&file, &least, IDENTITY_SHEET, 0);
    }
}

#[test]
fn an_exponent_may_be_28_in_a_short_file_and_60_in_a_long_one() {
    let short = |doublings: u8, exponent| {
        let matrix = scale(&IDENTITY, 1 << doublings);
        Kind::Short.file(&Operator { matrix, exponent })
    };
    assert_refused(&short(14, 29), 2);
    for exponent in 29..=255 {
        assert_refused(&short(0, exponent), 2);
    }
    let long = |doublings: u8, exponent| {
        let matrix = scale(&IDENTITY, 1 << doublings);
        Kind::Long.file(&Operator { matrix, exponent })
    };
    assert_refused(&long(30, 61), 2);
    assert_refused(&long(30, 62), 2);
    for exponent in 61..=255 {
        assert_refused(&long(0, exponent), 2);
    }
    // An odd exponent of the same numbers is none of an orthogonal matrix, and an even one of others.
    assert_refused(&long(14, 29), 4);
    assert_refused(&long(29, 59), 4);
    assert_refused(&long(29, 60), 4);
}

#[test]
fn gate_lists() {
    assert_list(b"", IDENTITY_SHEET, 0);
    assert_list(b"C", C_SHEET, 0);
    assert_list(b"CC", CZ_SHEET, 0);
    assert_list(b"Z", CZ_SHEET, 0);
    assert_list(b"HH", IDENTITY_SHEET, 0);
    assert_list(b"ZZ", MINUS_IDENTITY_SHEET, 0);
    assert_list(b"CCCCCCCC", IDENTITY_SHEET, 0);
    assert_list(b"CHC", CUT_EXAMPLE_SHEET, 1);
    assert_eq!(file_of_list(b"ZZ"), file(scale(&IDENTITY, -1), 0));
}

#[test]
fn the_example_of_cut() {
    let example = file(CUT_EXAMPLE, 2);
    assert_eq!(file_of_list(b"CHC"), example);
    for doublings in 0..=13 {
        let matrix = scale(&CUT_EXAMPLE, 1 << doublings);
        assert_cut_of_both(matrix, 2 + 2 * doublings, &example, CUT_EXAMPLE_SHEET, 1);
    }
    for doublings in 14..=29 {
        let file = file(scale(&CUT_EXAMPLE, 1 << doublings), 2 + 2 * doublings);
        assert_cut(&file, &example, CUT_EXAMPLE_SHEET, 1);
    }
}

#[test]
fn refused_operators() {
    let mut entry = scale(&IDENTITY, 2);
    entry[2][4] = 3;
    assert_both_refused(entry, 2, 3);
    assert_both_refused([[0; 6]; 6], 0, 4);
    assert_both_refused(IDENTITY, 1, 4);
    let mut improper = IDENTITY;
    improper[0][0] = -1;
    assert_both_refused(improper, 0, 5);
    assert_both_refused(scale(&improper, 1 << 14), 28, 5);
    assert_refused(&file(scale(&improper, 1 << 30), 60), 5);
}

#[test]
fn refused_lengths() {
    let identities = files(IDENTITY, 0);
    for len in (0..300).filter(|len| ![73, 145].contains(len)) {
        for file in &identities {
            let mut file = file.clone();
            file.resize(len, 0);
            assert_refused(&file, 1);
        }
        // 1 comes before 2.
        assert_refused(&vec![255; len], 1);
    }
    assert_refused(&[0; 73], 4);
    assert_refused(&[0; 145], 4);
    assert_refused(&[255; 73], 2);
    assert_refused(&[255; 145], 2);
}

#[test]
fn refused_entries_of_a_long_file() {
    let with_entry = |entry: i64, exponent: u8| {
        let mut matrix = scale(&IDENTITY, 1 << (exponent / 2));
        matrix[4][1] = entry;
        Kind::Long.file(&Operator { matrix, exponent })
    };
    // The ends of 32 bits; what looks like 0 in the low 16 bits, or like a small number there.
    for entry in [i32::MIN, i32::MIN + 1, i32::MAX, 3 << 29, -(3 << 29)] {
        for exponent in [0, 28, 60] {
            assert_refused(&with_entry(entry.into(), exponent), 3);
        }
    }
    for entry in [1 << 16, -1 << 16, (1 << 16) + 1, (1 << 24) - 1, 1 << 15] {
        for exponent in [0, 2, 28] {
            assert_refused(&with_entry(entry, exponent), 3);
        }
    }
    // Their squares are 0 in 32 bits.
    for (entry, exponent) in [(1 << 17, 32), (1 << 20, 38), (-1 << 30, 58)] {
        assert_refused(&with_entry(entry, exponent), 3);
    }
    // At the bound and just above it.
    for exponent in 0..=60u8 {
        let most = (1i64 << exponent).isqrt();
        for entry in [most, -most] {
            assert_refused(&with_entry(entry, exponent), 4);
        }
        for entry in [most + 1, -most - 1] {
            assert_refused(&with_entry(entry, exponent), 3);
        }
    }
}

#[test]
fn refused_sheets() {
    assert_sheet_refused(&[66, 13, 3, 1, 2, 3, 4, 5, 6, 0], 13);
    assert_sheet_refused(&[66, 3, 3, 1, 2, 3, 4, 5, 6, 0], 13);
    assert_sheet_refused(&[66, 3, 3, 1, 2, 3, 4, 5, 6, 1], 13);
    assert_sheet_refused(&[], 10);
    assert_sheet_refused(&[63, 1, 2, 3, 4, 5, 6], 10);
    assert_sheet_refused(&[64, 1, 1, 1, 1, 1, 1, 0], 12);
    assert_sheet_refused(&[&[92], &[1; 35][..]].concat(), 12);
    assert_sheet_refused(&[&[93], &[1; 36][..]].concat(), 12);
    assert_sheet_refused(&[&[124], &[1; 67][..]].concat(), 12);
    assert_sheet_refused(&[&[125], &[1; 68][..]].concat(), 10);
    assert_sheet_refused(&[65, 16, 1, 1, 3, 4, 5, 6, 0], 11);
    assert_sheet_refused(&[65, 0, 1, 2, 3, 4, 5, 6, 0], 11);
    assert_sheet_refused(&[64, 1, 2, 3, 4, 5, 128, 0], 11);
    assert_sheet_refused(&[66, 3, 3, 1, 1, 3, 4, 5, 6, 0], 12);
    assert_sheet_refused(&[64, 1, 2, 3, 4, 6, 5, 0], 12);
    assert_sheet_refused(&[64, 1, 2, 3, 4, 5, 134, 0], 12);
}

#[test]
fn refused_counts() {
    for first in (0..=255).filter(|&first| first != 64) {
        assert_sheet_refused(&[first, 1, 2, 3, 4, 5, 6, 0], 16);
    }
    // Without the first byte, and without the last one too.
    assert_sheet_refused(&[3, 13, 3, 130, 1, 4, 5, 6, 0], 16);
    assert_sheet_refused(&[3, 13, 3, 130, 1, 4, 5, 6], 16);
    assert_sheet_refused(&[1, 2, 3, 4, 5, 6, 0], 10);
    assert_sheet_refused(&[1, 2, 3, 4, 5, 6], 10);
    // 10 comes first, 11, 12, 15 and 13 later.
    assert_sheet_refused(&[1; 7], 10);
    assert_sheet_refused(&[1; 8], 16);
    assert_sheet_refused(&[1; 36], 16);
    assert_sheet_refused(&[1; 37], 16);
    assert_sheet_refused(&[1; 68], 16);
    assert_sheet_refused(&[1; 69], 10);
    assert_sheet_refused(&[66, 16, 1, 2, 3, 4, 5, 6, 0], 16);
    assert_sheet_refused(&[65, 1, 2, 3, 4, 5, 128, 0], 16);
    assert_sheet_refused(&[65, 1, 2, 3, 4, 6, 5, 0], 16);
    assert_sheet_refused(&[65, 1, 2, 3, 4, 5, 6, 2], 16);
    assert_sheet_refused(&[65, 3, 3, 1, 2, 3, 4, 5, 6, 0], 16);
}

#[test]
fn refused_signs() {
    for last in 2..=255 {
        assert_sheet_refused(&[64, 1, 2, 3, 4, 5, 6, last], 15);
    }
    assert_sheet_refused(&[64, 129, 130, 131, 132, 133, 134, 0], 15);
    assert_sheet_refused(&[64, 129, 130, 131, 132, 133, 134, 1], 15);
    assert_sheet_refused(&[64, 129, 130, 3, 4, 5, 6, 0], 15);
    // 11 and 12 come first, 13 later.
    assert_sheet_refused(&[65, 16, 1, 2, 3, 4, 5, 6, 2], 11);
    assert_sheet_refused(&[64, 129, 130, 131, 132, 133, 128, 0], 11);
    assert_sheet_refused(&[64, 1, 2, 3, 4, 6, 5, 2], 12);
    assert_sheet_refused(&[64, 129, 2, 3, 4, 5, 6, 0], 12);
    assert_sheet_refused(&[66, 3, 3, 1, 2, 3, 4, 5, 6, 2], 15);
    assert_sheet_refused(&[66, 3, 3, 129, 130, 3, 4, 5, 6, 1], 15);
}

#[test]
fn refused_gate_lists() {
    assert_list_refused(&[b'?'; 16_385], 7);
    assert_list_refused(&[b'?'; 16_384], 8);
    assert_list_refused(b"CHx", 8);
    assert_list(&[b'H'; 16_384], IDENTITY_SHEET, 0);
    let deepest = b"CHCSHshZ".repeat(64);
    let place = (0..=deepest.len())
        .find(|&end| gates_to_operator(&deepest[..end], &mut [0; LONG_BYTES]) == Err(9));
    let place = place.expect("a beginning above 60") - 1;
    assert_list_refused(&[&deepest[..place], b"?"].concat(), 8);
    assert_list_refused(&[&deepest[..=place], b"?"].concat(), 9);
    assert_eq!(file_of_list(&deepest[..place])[0], 60);
    // The list goes above 60 and comes back: seven C undo the last one.
    assert_list_refused(&[&deepest[..=place], b"CCCCCCC"].concat(), 9);
}

#[test]
fn short_buffers_come_last() {
    let example = file(CUT_EXAMPLE, 2);
    assert_eq!(operator_to_sheet(&example, &mut [0; 9]), Err(6));
    let cuts = Cuts { count: 2, loose: 1 };
    assert_eq!(operator_to_sheet(&example, &mut [0; 10]), Ok(cuts));
    assert_eq!(operator_to_gates(&example, &mut [0; 767]), Err(6));
    assert!(operator_to_gates(&example, &mut [0; 768]).is_ok());
    assert_eq!(gates_to_operator(b"CHC", &mut [0; 72]), Err(6));
    assert_eq!(gates_to_operator(b"CHC", &mut [0; SHORT_BYTES]), Ok(2));
    assert_eq!(gates_to_operator(b"CHC?", &mut []), Err(8));
    assert_eq!(sheet_to_operator(CUT_EXAMPLE_SHEET, &mut [0; 72]), Err(6));
    assert_eq!(
        sheet_to_operator(&[66, 3, 3, 1, 2, 3, 4, 5, 6, 0], &mut []),
        Err(13)
    );
    assert_eq!(
        sheet_to_operator(&[64, 1, 2, 3, 4, 5, 6, 2], &mut []),
        Err(15)
    );
    assert_eq!(sheet_to_operator(&[1; 8], &mut []), Err(16));
    assert_eq!(operator_to_sheet(&file(IDENTITY, 1), &mut []), Err(4));
}

#[test]
fn states() {
    assert_eq!(states_to_order(10, 50), Ok(10));
    assert_eq!(states_to_order(10, 150), Ok(12));
    assert_eq!(states_to_order(28, 50), Ok(29));
    assert_eq!(states_to_order(0, 1000), Ok(0));
    assert_eq!(states_to_order(28, 1000), Ok(56));
    assert_eq!(states_to_order(60, 1000), Ok(120));
    assert_eq!(states_to_order(1, 500), Ok(1));
    assert_eq!(states_to_order(3, 500), Ok(5));
    assert_eq!(states_to_order(1, 499), Ok(1));
    assert_eq!(states_to_order(1, 501), Ok(2));
    assert_eq!(states_to_order(29, 0), Ok(29));
    assert_eq!(states_to_order(60, 0), Ok(60));
    assert_eq!(states_to_order(60, 50), Ok(63));
    assert_eq!(states_to_order(61, 0), Err(14));
    assert_eq!(states_to_order(0, 1001), Err(14));
    assert_eq!(states_to_order(u64::MAX, u64::MAX), Err(14));
}
