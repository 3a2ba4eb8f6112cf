//! Document 02, P4: a sheet says its count first, so that sheets laid end to end can be told apart, and
//! a sheet without that byte is not read.

mod walks;

use plain::file::LONG_BYTES;
use plain::operator::Operator;
use plain::sheet::{columns, Sheet, MAX_SHEET, MIN_SHEET};
use plain::sheet_to_operator;

fn bytes(operator: Operator) -> Vec<u8> {
    let sheet = Sheet::cut(operator);
    let mut bytes = vec![0; sheet.size()];
    sheet.write(&mut bytes);
    bytes
}

/// What the call that reads a sheet answers.
fn read(sheet: &[u8]) -> Result<u8, u8> {
    sheet_to_operator(sheet, &mut [0; LONG_BYTES])
}

#[test]
fn the_first_byte_is_the_count_with_64_added() {
    for operator in walks::walks().flatten() {
        let sheet = bytes(operator);
        assert_eq!(sheet[0], 64 + operator.exponent);
        assert_eq!(read(&sheet), Ok(operator.exponent));
    }
}

#[test]
fn sheets_end_to_end_are_told_apart_by_their_first_bytes() {
    for operators in walks::walks() {
        let sheets: Vec<Vec<u8>> = operators.into_iter().map(bytes).collect();
        let end_to_end = sheets.concat();
        let mut rest = end_to_end.as_slice();
        for sheet in sheets {
            let (next, further) = rest.split_at(usize::from(rest[0]) - 56);
            assert_eq!(next, sheet);
            rest = further;
        }
        assert!(rest.is_empty());
    }
}

#[test]
fn older_sheets_are_not_read() {
    for operator in walks::walks().flatten() {
        let with_sign = &bytes(operator)[1..];
        let sheet = Sheet::cut(operator);
        let without_sign = [&sheet.generators[..], &columns(&sheet.rest().matrix)].concat();
        for older in [with_sign, &without_sign] {
            let allowed = (MIN_SHEET..=MAX_SHEET).contains(&older.len());
            assert_eq!(read(older), Err(if allowed { 16 } else { 10 }));
        }
    }
}
