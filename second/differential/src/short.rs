//! The short sheets, by document 02, P12. Of all sequences of at most two bytes the library reads, with the
//! identity's columns and the last byte 0, those that plain Rust lists, and these the program prints. A listed
//! product times a Clifford is cut into the listed numbers and that Clifford, and no two of these sheets are the
//! same. Every other product of at most two generators, times a Clifford, has one of them.

use std::fmt::Debug;
use std::process::exit;

use plain::file::{Kind, SHORT_BYTES};
use plain::operator::Operator;
use plain::refusal::OTHER_SHEET;
use plain::sheet::{Sheet, ABOVE_COUNT, MAX_SHEET};
use plain::short;

use crate::call::{Answer, Call};
use crate::judge::Judge;

/// What the program prints, and the file that says so.
const PRINTED: &str = include_str!("../../../crates/list_short/stdout");
const PRINTED_IN: &str = "crates/list_short/stdout";

/// What a sheet has behind its numbers: the columns of the identity, and the last byte 0.
const BEHIND: &[u8] = &[1, 2, 3, 4, 5, 6, 0];

/// A Clifford, and its sheet.
type Clifford = (Operator, Sheet);

/// Reads every sequence, and cuts every product.
pub fn run(judge: &mut Judge) {
    let (listed, others) = read(judge);
    same_list("the sheets that are read", &listed, &short::list());
    same_list(PRINTED_IN, &lines(PRINTED), &lines(&short::text()));
    let cliffords: Vec<Clifford> = samples::cliffords()
        .map(|clifford| (clifford, Sheet::cut(clifford)))
        .collect();
    let sheets = cut_listed(judge, &listed, &cliffords);
    cut_others(judge, &others, &cliffords, &sheets);
}

/// The sheets that the library reads, in order, and those that it refuses because cutting gives another one.
fn read(judge: &mut Judge) -> (Vec<Sheet>, Vec<Sheet>) {
    let (mut listed, mut others) = (Vec::new(), Vec::new());
    for numbers in sequences() {
        let first = ABOVE_COUNT + numbers.len() as u8;
        let bytes = [&[first], &numbers[..], BEHIND].concat();
        let sheet = || Sheet::read(&bytes).expect("the bytes of a sheet");
        match judge.run_with(Call::SheetToOperator, &bytes, SHORT_BYTES).0 {
            Answer::Count { count, .. } => {
                judge.tally.add_listed(count);
                listed.push(sheet());
            }
            Answer::Refused(OTHER_SHEET) => others.push(sheet()),
            _ => {}
        }
    }
    (listed, others)
}

/// No byte, every byte, and every two bytes, in order.
fn sequences() -> impl Iterator<Item = Vec<u8>> {
    let bytes = || 0..=u8::MAX;
    let pairs = bytes().flat_map(move |first| bytes().map(move |second| vec![first, second]));
    let single = bytes().map(|byte| vec![byte]);
    [vec![]].into_iter().chain(single).chain(pairs)
}

/// Cuts every listed product times every Clifford. Ends the program unless the answer is that of the listed
/// product, and the sheet has its numbers and the columns and the sign of the Clifford. Hands out the different
/// sheets, packed and in order.
fn cut_listed(judge: &mut Judge, listed: &[Sheet], cliffords: &[Clifford]) -> Vec<u128> {
    let mut sheets = Vec::with_capacity(listed.len() * cliffords.len());
    for listed in listed {
        let operator = listed.operator();
        let file = samples::file(&operator);
        let (answer, _) = judge.run_with(Call::OperatorToSheet, &file, MAX_SHEET);
        let mut expected = listed.clone();
        for (clifford, of_clifford) in cliffords {
            expected.columns = of_clifford.columns;
            expected.negative = of_clifford.negative;
            let product = operator.times(clifford);
            let (given, sheet) = cut(&product);
            if given != answer || sheet != packed(&expected) {
                end(&product, given, sheet, &format!("{answer:?}, {expected:?}"));
            }
            sheets.push(sheet);
        }
    }
    sheets.sort_unstable();
    sheets.dedup();
    judge.tally.add_short_products(sheets.len());
    sheets
}

/// Cuts every other product times every Clifford. Ends the program unless the sheet is one of the listed
/// products'. These are then the sheets of all operators of count at most 2.
fn cut_others(judge: &mut Judge, others: &[Sheet], cliffords: &[Clifford], sheets: &[u128]) {
    for other in others {
        let operator = other.operator().reduced();
        for (clifford, _) in cliffords {
            let product = operator.times(clifford);
            let (answer, sheet) = cut(&product);
            if sheets.binary_search(&sheet).is_err() {
                end(&product, answer, sheet, "listed numbers and a Clifford");
            }
        }
        judge.tally.add_other_products(cliffords.len());
    }
}

/// What the library answers for an operator, which has a short file, and the sheet that it writes, packed.
fn cut(operator: &Operator) -> (Answer, u128) {
    let mut file = [0; SHORT_BYTES];
    Kind::Short.write(operator, &mut file);
    let mut sheet = [0; size_of::<u128>()];
    let answer = Call::OperatorToSheet.tested(&file, &mut sheet);
    (answer, u128::from_le_bytes(sheet))
}

/// The bytes of a sheet and zeros behind them, as one number.
fn packed(sheet: &Sheet) -> u128 {
    let mut bytes = [0; size_of::<u128>()];
    sheet.write(&mut bytes[..sheet.size()]);
    u128::from_le_bytes(bytes)
}

/// The lines of a text, each with its line feed.
fn lines(text: &str) -> Vec<&str> {
    text.split_inclusive('\n').collect()
}

/// Ends the program unless both lists are the same.
fn same_list<T: Debug + PartialEq>(name: &str, given: &[T], expected: &[T]) {
    for place in 0..given.len().max(expected.len()) {
        let (given, expected) = (given.get(place), expected.get(place));
        if given != expected {
            let number = place + 1;
            println!("{name}, number {number}: expected {expected:?}; given {given:?}");
            exit(1);
        }
    }
}

/// Prints what is wrong and ends the program.
fn end(product: &Operator, answer: Answer, sheet: u128, expected: &str) -> ! {
    println!("{}: {product:?}", Call::OperatorToSheet.name());
    let sheet = sheet.to_le_bytes();
    println!("expected {expected}; given {answer:?}, {sheet:?}");
    exit(1);
}
