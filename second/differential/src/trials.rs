//! The cases of document 01, "Trial cuts", with the first byte of document 02, P4, the last byte of P2
//! and the L of P3, the example of `cut`, the orders of document 02, P1, small bundles of P7, small texts
//! of P8, the signs of P9, the limits of P10 and small programs of P13, on both implementations.

use std::fmt::Debug;

use plain::file::{Kind, LONG_BYTES};
use plain::gate::LETTERS_PER_COUNT;
use plain::matrix::{scale, Matrix, IDENTITY};
use plain::operator::Operator;
use plain::refusal::{BUNDLE_SHEETS, NO_STATEMENT};
use plain::sheet::MIN_SHEET;
use samples::Text;

use crate::call::{order, question, Answer, Call};
use crate::judge::Judge;

const CUT_EXAMPLE: Matrix = [
    [1, 1, 1, 0, 0, -1],
    [-1, -1, 1, 0, 0, -1],
    [1, -1, -1, 0, 0, -1],
    [0, 0, 0, 0, -2, 0],
    [0, 0, 0, 2, 0, 0],
    [1, -1, 1, 0, 0, 1],
];

const IDENTITY_SHEET: &[u8] = &[64, 1, 2, 3, 4, 5, 6, 0];
const MINUS_IDENTITY_SHEET: &[u8] = &[64, 1, 2, 3, 4, 5, 6, 1];
const C_SHEET: &[u8] = &[65, 3, 1, 2, 3, 4, 5, 6, 0];
const CZ_SHEET: &[u8] = &[64, 2, 129, 6, 5, 132, 131, 0];
const CHC_SHEET: &[u8] = &[66, 3, 13, 3, 130, 1, 4, 5, 6, 0];
const MINUS_CHC_SHEET: &[u8] = &[66, 3, 13, 3, 130, 1, 4, 5, 6, 1];

/// Sheets and the refusals that they earn.
const REFUSED_SHEETS: [(&[u8], u8); 19] = [
    (&[1, 2, 3, 4, 5, 6], 10),
    (&[1, 2, 3, 4, 5, 6, 0], 10),
    (&[63, 1, 2, 3, 4, 5, 6], 10),
    (&[3, 13, 3, 130, 1, 4, 5, 6], 16),
    (&[3, 13, 3, 130, 1, 4, 5, 6, 0], 16),
    (&[65, 1, 2, 3, 4, 5, 6, 0], 16),
    (&[8, 1, 2, 3, 4, 5, 6, 0], 16),
    (&[65, 0, 2, 3, 4, 5, 6, 2], 16),
    (&[65, 16, 1, 2, 3, 4, 5, 6, 2], 11),
    (&[64, 1, 2, 3, 4, 5, 128, 2], 11),
    (&[64, 129, 2, 3, 4, 5, 6, 0], 12),
    (&[64, 1, 2, 3, 4, 6, 5, 2], 12),
    (&[64, 1, 2, 3, 4, 5, 6, 2], 15),
    (&[64, 1, 2, 3, 4, 5, 6, 255], 15),
    (&[64, 129, 130, 131, 132, 133, 134, 0], 15),
    (&[64, 129, 130, 131, 132, 133, 134, 1], 15),
    (&[66, 3, 3, 1, 2, 3, 4, 5, 6, 2], 15),
    (&[66, 13, 3, 1, 2, 3, 4, 5, 6, 0], 13),
    (&[66, 3, 3, 1, 2, 3, 4, 5, 6, 0], 13),
];

/// t, p and the states to order.
const ORDERS: [(u64, u64, u64); 9] = [
    (10, 50, 10),
    (10, 150, 12),
    (28, 50, 29),
    (0, 1000, 0),
    (28, 1000, 56),
    (29, 0, 29),
    (60, 1000, 120),
    (1, 500, 1),
    (3, 500, 5),
];

/// Sheets with their places in a bundle, and its trailer.
const BUNDLED: [(&[u8], usize); 3] = [(IDENTITY_SHEET, 0), (C_SHEET, 8), (CHC_SHEET, 17)];
const TRAILER: &[u8] = &[0, 0, 8, 0, 17, 0, 3, 0];

/// Bundles, the sheets that they are asked for, and the refusals that this earns.
const REFUSED_BUNDLES: [(&[u8], u64, u8); 15] = [
    (&[], 0, 20),
    (&[0], 0, 20),
    (&[1, 0], 0, 20),
    (&[63, 1, 0], 1, 20),
    (&[0, 0, 0], 0, 21),
    (&[0, 0, 1, 0], 0, 21),
    (&[63, 1, 2, 3, 4, 5, 6, 0, 0, 1, 0], 1, 21),
    (&[64, 1, 2, 3, 4, 5, 6, 0, 1, 0, 1, 0], 0, 21),
    (&[65, 1, 2, 3, 4, 5, 6, 0, 0, 0, 1, 0], 0, 21),
    (&[64, 1, 2, 3, 4, 5, 6, 0, 0, 0, 0, 1, 0], 0, 21),
    (&[64, 1, 2, 3, 4, 5, 6, 0, 0, 0], 0, 21),
    (&[64, 1, 2, 3, 4, 5, 6, 0, 0, 0, 1, 0], 1, 22),
    (&[64, 1, 2, 3, 4, 5, 6, 0, 0, 0, 1, 0], 1 << 32, 22),
    (&[0, 0], 0, 22),
    (&[0, 0], u64::MAX, 22),
];

/// Bytes that are not sheets end to end.
const NO_SHEETS: [&[u8]; 4] = [
    &[0],
    &[63, 1, 2, 3, 4, 5, 6],
    &[64, 1, 2, 3, 4, 5, 6],
    &[64, 1, 2, 3, 4, 5, 6, 0, 64],
];

/// Lists, and the statements of their texts.
const TEXTS: [(&[u8], &[&str]); 4] = [
    (b"", &[]),
    (b"C", &["cu1(pi/2) q[0],q[1];"]),
    (b"CHs", &["s q[1];", "h q[0];", "cu1(pi/2) q[0],q[1];"]),
    (b"ZSh", &["h q[1];", "s q[0];", "cz q[0],q[1];"]),
];

/// A list, and its statements with the qubits in the reverse order.
const REVERSED: (&[u8], &[&str]) = (b"CZ", &["cz q[1],q[0];", "cu1(pi/2) q[1],q[0];"]);

/// Programs, their layers, and how many there are.
const PROGRAMS: [(&[u8], &[u8], usize); 8] = [
    (&[], &[], 0),
    (&[31, 0], &[0], 1),
    (&[0, 1, 1, 0], &[0, 1], 2),
    (&[0, 1, 2, 3, 4, 5], &[0, 0, 0], 1),
    (&[0, 1, 1, 2, 2, 3], &[0, 1, 2], 3),
    (&[0, 1, 2, 3, 1, 2, 3, 4], &[0, 0, 1, 1], 2),
    (&[0, 1, 0, 2, 3, 4, 3, 2], &[0, 1, 0, 2], 3),
    (&[0, 1, 0, 1, 0, 1, 2, 3], &[0, 1, 2, 0], 3),
];

/// Programs and the refusals that they earn.
const REFUSED_PROGRAMS: [(&[u8], u8); 11] = [
    (&[0], 24),
    (&[0, 1, 2], 24),
    (&[5, 5, 0], 24),
    (&[32, 1, 0], 24),
    (&[0; 130], 24),
    (&[255; 384], 24),
    (&[32, 0], 25),
    (&[0, 32], 25),
    (&[255, 255], 25),
    (&[5, 5], 25),
    (&[0, 1, 2, 3, 4, 4], 25),
];

/// Runs all trial cuts.
pub fn run(judge: &mut Judge) {
    accepted_operators(judge);
    refused_operators(judge);
    gate_lists(judge);
    refused_sheets(judge);
    orders(judge);
    bundles(judge);
    refused_bundles(judge);
    texts(judge);
    signs(judge);
    programs(judge);
}

fn accepted_operators(judge: &mut Judge) {
    let identity = file(&IDENTITY, 0);
    for doublings in [0, 1, 14, 15, 30] {
        let matrix = scale(&IDENTITY, 1 << doublings);
        both_cut(judge, &matrix, 2 * doublings, &identity, IDENTITY_SHEET, 0);
    }
    let minus = file(&scale(&IDENTITY, -1), 0);
    both_cut(
        judge,
        &scale(&IDENTITY, -1),
        0,
        &minus,
        MINUS_IDENTITY_SHEET,
        0,
    );
    let example = file(&CUT_EXAMPLE, 2);
    for doublings in [0, 1, 13, 14, 29] {
        let matrix = scale(&CUT_EXAMPLE, 1 << doublings);
        both_cut(judge, &matrix, 2 + 2 * doublings, &example, CHC_SHEET, 1);
    }
    let minus_example = file(&scale(&CUT_EXAMPLE, -1), 2);
    both_cut(
        judge,
        &scale(&CUT_EXAMPLE, -1),
        2,
        &minus_example,
        MINUS_CHC_SHEET,
        1,
    );
}

fn refused_operators(judge: &mut Judge) {
    let mut entry = scale(&IDENTITY, 2);
    entry[0][0] = 3;
    let mut improper = IDENTITY;
    improper[0][0] = -1;
    for kind in Kind::ALL {
        let (half, largest) = (kind.max_exponent() / 2, kind.max_exponent());
        let power = 1 << half;
        let refused = [
            (scale(&IDENTITY, power), largest + 1, 2),
            (scale(&IDENTITY, power), 255, 2),
            (entry, 2, 3),
            (scale(&IDENTITY, power), largest - 1, 3),
            (scale(&IDENTITY, power + 1), largest, 3),
            (scale(&IDENTITY, kind.range().0), largest, 3),
            (scale(&IDENTITY, kind.range().1), largest, 3),
            (scale(&IDENTITY, 0), 0, 4),
            (IDENTITY, 1, 4),
            (scale(&IDENTITY, power - 1), largest, 4),
            (improper, 0, 5),
            (scale(&improper, power), largest, 5),
        ];
        for (matrix, exponent, number) in refused {
            refused_operator(judge, &kind.file(&Operator { matrix, exponent }), number);
        }
        let file = kind.file(&Operator::IDENTITY);
        refused_operator(judge, &file[1..], 1);
        refused_operator(judge, &[&file[..], &[0]].concat(), 1);
    }
    refused_operator(judge, &[], 1);
}

fn gate_lists(judge: &mut Judge) {
    list_cuts(judge, b"", IDENTITY_SHEET, 0);
    list_cuts(judge, b"C", C_SHEET, 0);
    list_cuts(judge, b"CC", CZ_SHEET, 0);
    list_cuts(judge, b"Z", CZ_SHEET, 0);
    list_cuts(judge, b"HH", IDENTITY_SHEET, 0);
    list_cuts(judge, b"ZZ", MINUS_IDENTITY_SHEET, 0);
    list_cuts(judge, b"CCCCCCCC", IDENTITY_SHEET, 0);
    list_cuts(judge, b"CHC", CHC_SHEET, 1);
}

fn refused_sheets(judge: &mut Judge) {
    for (sheet, number) in REFUSED_SHEETS {
        let answer = Answer::Refused(number);
        expect(judge, Call::SheetToOperator, sheet, answer, &[]);
    }
}

fn orders(judge: &mut Judge) {
    for (t, p, states) in ORDERS {
        let answer = Answer::count(states);
        expect(judge, Call::StatesToOrder, &order(t, p), answer, &[]);
    }
}

fn bundles(judge: &mut Judge) {
    let sheets = BUNDLED.map(|(sheet, _)| sheet).concat();
    let bundle = [&sheets, TRAILER].concat();
    for (sheets, bundle) in [(&sheets[..], &bundle[..]), (&[], &[0, 0])] {
        let answer = Answer::Written(bundle.len());
        expect(judge, Call::SheetsToBundle, sheets, answer, bundle);
    }
    for (n, (sheet, place)) in (0..).zip(BUNDLED) {
        let length = sheet.len();
        let answer = Answer::Part { place, length };
        expect(judge, Call::BundleSheet, &question(n, &bundle), answer, &[]);
    }
}

fn refused_bundles(judge: &mut Judge) {
    for (bundle, n, number) in REFUSED_BUNDLES {
        let answer = Answer::Refused(number);
        expect(judge, Call::BundleSheet, &question(n, bundle), answer, &[]);
    }
    for bytes in NO_SHEETS {
        let answer = Answer::Refused(BUNDLE_SHEETS);
        expect(judge, Call::SheetsToBundle, bytes, answer, &[]);
    }
}

fn texts(judge: &mut Judge) {
    for (list, statements) in TEXTS {
        let text = Text::with(statements.iter().copied()).bytes();
        let answer = Answer::Written(text.len());
        expect(judge, Call::GatesToQasm, list, answer, &text);
    }
    for (list, statements) in TEXTS.into_iter().chain([REVERSED]) {
        let text = Text::with(statements.iter().copied()).bytes();
        let answer = Answer::Written(list.len());
        expect(judge, Call::QasmToGates, &text, answer, list);
        let answer = Answer::Refused(NO_STATEMENT);
        expect(judge, Call::QasmToGates, &text[1..], answer, &[]);
        let unended = &text[..text.len() - 1];
        expect(judge, Call::QasmToGates, unended, answer, &[]);
    }
}

/// The identity and its negative have no letters; their signs tell them apart.
fn signs(judge: &mut Judge) {
    for (sign, entry) in [(0, 1), (1, -1)] {
        let file = file(&scale(&IDENTITY, entry), 0);
        let empty = Answer::Count {
            count: 0,
            letters: 0,
            loose: 0,
            sign,
        };
        let written = judge.run_with(Call::OperatorToGates, &file, LETTERS_PER_COUNT);
        same(Call::OperatorToGates, &file, &written, &(empty, vec![]));
    }
}

fn programs(judge: &mut Judge) {
    for (program, layers, number) in PROGRAMS {
        let answer = Answer::Layers(number);
        expect(judge, Call::BlocksToLayers, program, answer, layers);
    }
    for (program, number) in REFUSED_PROGRAMS {
        let answer = Answer::Refused(number);
        expect(judge, Call::BlocksToLayers, program, answer, &[]);
    }
}

/// The list multiplies to the operator of the sheet and of this L.
fn list_cuts(judge: &mut Judge, list: &[u8], sheet: &[u8], loose: u8) {
    let (_, file) = judge.run_with(Call::GatesToOperator, list, LONG_BYTES);
    expect(judge, Call::GatesToOperator, list, count_of(sheet), &file);
    cuts(judge, &file, &file, sheet, loose);
}

/// The operator cuts into the sheet with this L, and the sheet leads back to its least file, as does the
/// gate list, or to that of the negative where its sign is 1.
fn cuts(judge: &mut Judge, file: &[u8], least: &[u8], sheet: &[u8], loose: u8) {
    let cut = Answer::Count {
        count: count(sheet) as u64,
        letters: 0,
        loose,
        sign: 0,
    };
    expect(judge, Call::OperatorToSheet, file, cut, sheet);
    expect(judge, Call::SheetToOperator, sheet, count_of(sheet), least);
    let letters = LETTERS_PER_COUNT * (count(sheet) + 1);
    let (listed, list) = judge.run_with(Call::OperatorToGates, file, letters);
    same(Call::OperatorToGates, file, &listed.without_letters(), &cut);
    let said = with_sign(least, listed);
    expect(judge, Call::GatesToOperator, &list, count_of(sheet), &said);
}

/// The same for each kind of file that may have the exponent.
fn both_cut(
    judge: &mut Judge,
    matrix: &Matrix,
    exponent: u8,
    least: &[u8],
    sheet: &[u8],
    loose: u8,
) {
    let matrix = *matrix;
    for kind in Kind::ALL {
        if exponent <= kind.max_exponent() {
            let file = kind.file(&Operator { matrix, exponent });
            cuts(judge, &file, least, sheet, loose);
        }
    }
}

fn refused_operator(judge: &mut Judge, file: &[u8], number: u8) {
    let answer = Answer::Refused(number);
    expect(judge, Call::OperatorToSheet, file, answer, &[]);
    expect(judge, Call::OperatorToGates, file, answer, &[]);
}

/// Ends the program unless the call gives this answer and output, with a buffer that is exactly
/// long enough and with one that is longer.
pub fn expect(judge: &mut Judge, call: Call, input: &[u8], answer: Answer, output: &[u8]) {
    for out_len in [output.len(), output.len() + 100] {
        let outcome = judge.run_with(call, input, out_len);
        same(call, input, &outcome, &(answer, output.to_vec()));
    }
}

/// Ends the program unless both implementations gave what the papers say.
pub fn same<T: Debug + PartialEq>(call: Call, input: &[u8], given: &T, expected: &T) {
    if given != expected {
        println!("{}: input {input:?}", call.name());
        println!("expected {expected:?}; both gave {given:?}");
        std::process::exit(1);
    }
}

/// The least file of the operator or, where the answer's sign is 1, of its negative.
fn with_sign(least: &[u8], answer: Answer) -> Vec<u8> {
    let negative = matches!(answer, Answer::Count { sign: 1, .. });
    let operator = Operator::read(least).expect("an accepted operator");
    samples::file(&operator.with_sign(negative.into()))
}

fn count_of(sheet: &[u8]) -> Answer {
    Answer::count(count(sheet) as u64)
}

fn count(sheet: &[u8]) -> usize {
    sheet.len() - MIN_SHEET
}

fn file(matrix: &Matrix, exponent: u8) -> Vec<u8> {
    let matrix = *matrix;
    samples::file(&Operator { matrix, exponent })
}
