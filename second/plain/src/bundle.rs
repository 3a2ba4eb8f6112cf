//! Bundles: sheets end to end and a trailer that points back to them, by document 02, P7. A sheet is as
//! long as its first byte says; what its other bytes are does not matter here.

use crate::refusal;
use crate::sheet::{ABOVE_LENGTH, MAX_SHEET, MIN_SHEET};

/// The most sheets of a bundle.
pub const MAX_SHEETS: usize = 512;

/// The most bytes that a first byte can say.
pub const MAX_PART: usize = u8::MAX as usize - ABOVE_LENGTH;

/// The bytes of an offset, and of the number of sheets.
pub const NUMBER_BYTES: usize = 2;

/// The longest bundle that is written.
pub const MAX_BUNDLE: usize = MAX_SHEETS * (MAX_SHEET + NUMBER_BYTES) + NUMBER_BYTES;

/// The sheets of a bundle, each as the part of it that it is.
pub fn read(bundle: &[u8]) -> Result<Vec<&[u8]>, u8> {
    let (bytes, trailer) = split(bundle).ok_or(refusal::BUNDLE_TRAILER)?;
    let (sheets, rest) = told_apart(bytes, MAX_PART);
    let points_back = trailer_of(&sheets).as_deref() == Some(trailer);
    if !rest.is_empty() || !points_back {
        return Err(refusal::BUNDLE_SHEETS);
    }
    Ok(sheets)
}

/// The bundle of sheets that lie end to end and are no longer than sheets may be.
pub fn of_sheets(bytes: &[u8]) -> Result<Vec<u8>, u8> {
    let (sheets, rest) = told_apart(bytes, MAX_SHEET);
    if sheets.len() > MAX_SHEETS {
        return Err(refusal::BUNDLE_TRAILER);
    }
    if !rest.is_empty() {
        return Err(refusal::BUNDLE_SHEETS);
    }
    let trailer = trailer_of(&sheets).expect("512 sheets have fewer than 65,536 bytes");
    Ok([bytes, &trailer].concat())
}

/// The bytes before the trailer, and the trailer, whose length its last number says.
fn split(bundle: &[u8]) -> Option<(&[u8], &[u8])> {
    let number = usize::from(u16::from_le_bytes(*bundle.last_chunk()?));
    if number > MAX_SHEETS {
        return None;
    }
    let start = bundle.len().checked_sub(NUMBER_BYTES * (number + 1))?;
    Some(bundle.split_at(start))
}

/// The sheets that stand whole, end to end, at the front of the bytes, and the bytes behind them. No
/// sheet is longer than `longest`.
fn told_apart(mut bytes: &[u8], longest: usize) -> (Vec<&[u8]>, &[u8]) {
    let mut sheets = Vec::new();
    while let Some((sheet, rest)) = first_sheet(bytes, longest) {
        sheets.push(sheet);
        bytes = rest;
    }
    (sheets, bytes)
}

fn first_sheet(bytes: &[u8], longest: usize) -> Option<(&[u8], &[u8])> {
    let len = usize::from(*bytes.first()?).checked_sub(ABOVE_LENGTH)?;
    if !(MIN_SHEET..=longest).contains(&len) {
        return None;
    }
    bytes.split_at_checked(len)
}

/// The trailer of sheets that lie end to end: their offsets and their number; none if one of these has
/// more than 16 bits.
fn trailer_of(sheets: &[&[u8]]) -> Option<Vec<u8>> {
    let offsets = sheets.iter().scan(0, |end, sheet| {
        let start = *end;
        *end += sheet.len();
        Some(start)
    });
    let numbers = offsets.chain([sheets.len()]).map(u16::try_from);
    let numbers: Vec<u16> = numbers.collect::<Result<_, _>>().ok()?;
    Some(numbers.into_iter().flat_map(u16::to_le_bytes).collect())
}
