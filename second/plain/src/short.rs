//! The short sheets, by document 02, P12: those of count 0, 1 and 2 whose Clifford is the identity and whose
//! last byte is 0, ordered by count and then by the numbers, and the text of their list.

use crate::generator::GENERATOR_COUNT;
use crate::matrix::IDENTITY;
use crate::sheet::{columns, Sheet};

/// The largest count that is listed.
pub const MAX_SHORT_COUNT: usize = 2;

/// The listed sheets: of all sequences of at most two numbers, those whose sheet is that of its operator.
pub fn list() -> Vec<Sheet> {
    let sequences = (0..=MAX_SHORT_COUNT).flat_map(sequences);
    sequences.map(sheet).filter(is_cut).collect()
}

/// The text of the list: a line for each sheet, with the count and the numbers.
pub fn text() -> String {
    list().iter().map(line).collect()
}

/// Every sequence of so many numbers from 1 to 15, in order.
fn sequences(count: usize) -> Vec<Vec<u8>> {
    let longer = |sequence: Vec<u8>| {
        let numbers = 1..=GENERATOR_COUNT as u8;
        numbers.map(move |number| [&sequence[..], &[number]].concat())
    };
    let mut sequences = vec![vec![]];
    for _ in 0..count {
        sequences = sequences.into_iter().flat_map(longer).collect();
    }
    sequences
}

/// The sheet with these numbers, the identity and the last byte 0, whether or not it is that of its operator.
fn sheet(generators: Vec<u8>) -> Sheet {
    Sheet {
        generators,
        columns: columns(&IDENTITY),
        negative: false,
    }
}

/// Whether cutting the sheet's operator gives the sheet.
fn is_cut(sheet: &Sheet) -> bool {
    Sheet::cut(sheet.operator().reduced()) == *sheet
}

/// The count and the numbers, with a space between two, and a line feed.
fn line(sheet: &Sheet) -> String {
    let numbers = [&[sheet.count()], &sheet.generators[..]].concat();
    let numbers: Vec<String> = numbers.iter().map(u8::to_string).collect();
    numbers.join(" ") + "\n"
}
