//! Damages of bundles and of sheets to be bundled. Each may leave its object as it was.

// Damages have one type, whether or not they change a length.
#![allow(clippy::ptr_arg)]

use plain::bundle::{MAX_PART, MAX_SHEETS, NUMBER_BYTES};
use plain::sheet::{ABOVE_COUNT, ABOVE_LENGTH, MAX_SHEET, MIN_SHEET};
use samples::{part, Bundle, Random};

use crate::damages::{
    byte_at_end, byte_at_front, cut_end, cut_front, few_of, flip_bit, no_bytes, random_bytes,
    swap_bytes, Damage,
};

use super::any_part;

/// First bytes below 64: the next one, and those around a length of 0.
const LOW_FIRST_BYTES: [u8; 6] = [0, 1, 55, 56, 57, 63];

/// First bytes that no sheet has.
const UNFIT_FIRST_BYTES: [u8; 6] = [0, 56, 63, 125, 126, 255];

/// Lengths that no sheet has.
const UNFIT_LENGTHS: [usize; 6] = [1, 7, 69, 70, 128, 199];

type PieceDamage = fn(&mut Random, &mut Bundle);
type ListDamage = fn(&mut Random, &mut Vec<Vec<u8>>);

/// Damages of the pieces of a bundle.
pub const PIECE_DAMAGES: [PieceDamage; 29] = [
    low_first_byte,
    other_first_byte,
    next_first_byte,
    reach_into_trailer,
    reach_the_end,
    short_sheet,
    sheet_past_a_byte,
    gap_before_trailer,
    sheet_without_offset,
    without_a_sheet,
    without_last_byte,
    without_sheets,
    swap_sheets,
    nudge_offset,
    other_high_byte_of_offset,
    random_offset,
    swap_offsets,
    shift_offsets,
    offsets_of_ends,
    exchange_bytes_of_offset,
    exchange_bytes_of_trailer,
    offset_without_sheet,
    without_an_offset,
    nudge_number,
    exchange_bytes_of_number,
    number_that_just_fits,
    number_that_does_not_fit,
    number_above,
    number_above_by_one_bit,
];

/// Damages of the bytes of a bundle.
pub const BYTE_DAMAGES: [Damage; 10] = [
    no_bytes,
    one_byte,
    cut_end,
    cut_front,
    byte_at_end,
    byte_at_front,
    flip_bit,
    swap_bytes,
    random_bytes,
    random_bytes_and_a_number,
];

/// Damages of sheets that lie end to end.
pub const LIST_DAMAGES: [ListDamage; 7] = [
    unfit_first_byte,
    fitting_first_byte,
    unfit_sheet,
    cut_off,
    bytes_after,
    byte_inside,
    random_sheet,
];

/// One of the sheets, if there are any: often the last, or one around the 512th.
fn sheet_in<'a>(random: &mut Random, sheets: &'a mut [Vec<u8>]) -> Option<&'a mut Vec<u8>> {
    let last = sheets.len().checked_sub(1)?;
    let place = match random.below(4) {
        0 => last,
        1 => last.min(MAX_SHEETS - 1 + random.below(3)),
        _ => random.below(sheets.len()),
    };
    sheets.get_mut(place)
}

/// The first byte of one of the sheets.
fn first_byte_in<'a>(random: &mut Random, sheets: &'a mut [Vec<u8>]) -> Option<&'a mut u8> {
    sheet_in(random, sheets)?.first_mut()
}

/// One of the offsets, if there are any.
fn offset_in<'a>(random: &mut Random, bundle: &'a mut Bundle) -> Option<&'a mut u16> {
    let place = random.below(bundle.offsets.len().max(1));
    bundle.offsets.get_mut(place)
}

fn low_first_byte(random: &mut Random, bundle: &mut Bundle) {
    if let Some(first) = first_byte_in(random, &mut bundle.sheets) {
        *first = if random.chance(2) {
            *random.pick(&LOW_FIRST_BYTES)
        } else {
            random.below(ABOVE_COUNT.into()) as u8
        };
    }
}

fn other_first_byte(random: &mut Random, bundle: &mut Bundle) {
    if let Some(first) = first_byte_in(random, &mut bundle.sheets) {
        *first = random.byte();
    }
}

/// The first byte of a sheet that is one byte longer or shorter.
fn next_first_byte(random: &mut Random, bundle: &mut Bundle) {
    if let Some(first) = first_byte_in(random, &mut bundle.sheets) {
        *first = first.wrapping_add(*random.pick(&[1, u8::MAX]));
    }
}

/// The last sheet ends in the trailer, or past it.
fn reach_into_trailer(random: &mut Random, bundle: &mut Bundle) {
    let last = bundle.sheets.last_mut();
    if let Some(first) = last.and_then(|sheet| sheet.first_mut()) {
        let most = *random.pick(&[3, MAX_PART]);
        *first = first.saturating_add(1 + random.below(most) as u8);
    }
}

/// A sheet, the last or another, ends about where the bytes end, unless that is too far away.
fn reach_the_end(random: &mut Random, bundle: &mut Bundle) {
    let end = bundle.bytes().len();
    let n = random.below(bundle.sheets.len().max(1));
    let start = bundle.sheets[..n].concat().len();
    let length = end - start - 1 + random.below(3);
    if let Some(first) = bundle.sheets.get_mut(n).and_then(|sheet| sheet.first_mut()) {
        *first = (ABOVE_LENGTH + length).min(u8::MAX.into()) as u8;
    }
}

/// A sheet is as long as its first byte says, and too short; all else is right.
fn short_sheet(random: &mut Random, bundle: &mut Bundle) {
    let length = if random.chance(2) {
        MIN_SHEET - 1
    } else {
        1 + random.below(MIN_SHEET - 1)
    };
    replace_sheet(random, bundle, length);
}

/// A sheet is as long as its first byte says in the low eight bits alone; all else is right.
fn sheet_past_a_byte(random: &mut Random, bundle: &mut Bundle) {
    let length = MAX_PART + 1 + random.below(ABOVE_LENGTH);
    replace_sheet(random, bundle, length);
}

/// Puts a part of the given length in the place of a sheet, and makes the trailer follow.
fn replace_sheet(random: &mut Random, bundle: &mut Bundle, length: usize) {
    if let Some(sheet) = sheet_in(random, &mut bundle.sheets) {
        *sheet = part(random, length);
    }
    bundle.point_back();
}

fn gap_before_trailer(random: &mut Random, bundle: &mut Bundle) {
    let bytes = 1 + random.below(3);
    bundle.sheets.push(random.bytes(bytes));
}

fn sheet_without_offset(random: &mut Random, bundle: &mut Bundle) {
    let place = random.below(bundle.sheets.len() + 1);
    bundle.sheets.insert(place, any_part(random));
}

fn without_a_sheet(random: &mut Random, bundle: &mut Bundle) {
    if !bundle.sheets.is_empty() {
        let place = random.below(bundle.sheets.len());
        bundle.sheets.remove(place);
    }
}

/// The last sheet reaches one byte into the trailer.
fn without_last_byte(_: &mut Random, bundle: &mut Bundle) {
    if let Some(last) = bundle.sheets.last_mut() {
        last.pop();
    }
}

/// The trailer alone.
fn without_sheets(_: &mut Random, bundle: &mut Bundle) {
    bundle.sheets.clear();
}

fn swap_sheets(random: &mut Random, bundle: &mut Bundle) {
    if bundle.sheets.len() > 1 {
        let (i, j) = random.two_below(bundle.sheets.len());
        bundle.sheets.swap(i, j);
    }
}

/// Sheets overlap, or leave a gap.
fn nudge_offset(random: &mut Random, bundle: &mut Bundle) {
    if let Some(offset) = offset_in(random, bundle) {
        *offset = offset.wrapping_add(*random.pick(&[1, u16::MAX]));
    }
}

fn other_high_byte_of_offset(random: &mut Random, bundle: &mut Bundle) {
    if let Some(offset) = offset_in(random, bundle) {
        *offset ^= 1 << (8 + random.below(8));
    }
}

fn random_offset(random: &mut Random, bundle: &mut Bundle) {
    if let Some(offset) = offset_in(random, bundle) {
        *offset = random.number() as u16;
    }
}

fn swap_offsets(random: &mut Random, bundle: &mut Bundle) {
    if bundle.offsets.len() > 1 {
        let (i, j) = random.two_below(bundle.offsets.len());
        bundle.offsets.swap(i, j);
    }
}

/// Offsets that do not start at 0, with right distances.
fn shift_offsets(random: &mut Random, bundle: &mut Bundle) {
    let shift = *random.pick(&[1, 2, 8, u16::MAX]);
    for offset in &mut bundle.offsets {
        *offset = offset.wrapping_add(shift);
    }
}

/// Each offset is that of the sheet after.
fn offsets_of_ends(_: &mut Random, bundle: &mut Bundle) {
    let end = bundle.sheets.concat().len() as u16;
    bundle.offsets.push(end);
    bundle.offsets.remove(0);
}

fn exchange_bytes_of_offset(random: &mut Random, bundle: &mut Bundle) {
    if let Some(offset) = offset_in(random, bundle) {
        *offset = offset.swap_bytes();
    }
}

fn exchange_bytes_of_trailer(random: &mut Random, bundle: &mut Bundle) {
    for offset in &mut bundle.offsets {
        *offset = offset.swap_bytes();
    }
    exchange_bytes_of_number(random, bundle);
}

/// The trailer points at itself, and may count that.
fn offset_without_sheet(random: &mut Random, bundle: &mut Bundle) {
    let end = bundle.sheets.concat().len() as u16;
    bundle.offsets.push(end);
    if random.chance(2) {
        bundle.number = bundle.number.wrapping_add(1);
    }
}

fn without_an_offset(random: &mut Random, bundle: &mut Bundle) {
    if !bundle.offsets.is_empty() {
        let place = random.below(bundle.offsets.len());
        bundle.offsets.remove(place);
    }
    if random.chance(2) {
        bundle.number = bundle.number.wrapping_sub(1);
    }
}

fn nudge_number(random: &mut Random, bundle: &mut Bundle) {
    let step = *random.pick(&[1, u16::MAX]);
    bundle.number = bundle.number.wrapping_add(step);
}

fn exchange_bytes_of_number(_: &mut Random, bundle: &mut Bundle) {
    bundle.number = bundle.number.swap_bytes();
}

/// All bytes, or all but the first, are the trailer.
fn number_that_just_fits(_: &mut Random, bundle: &mut Bundle) {
    bundle.number = most_offsets(bundle) as u16;
}

fn number_that_does_not_fit(random: &mut Random, bundle: &mut Bundle) {
    bundle.number = (most_offsets(bundle) + 1 + random.below(3)) as u16;
}

/// How many offsets the bytes before the number can hold.
fn most_offsets(bundle: &Bundle) -> usize {
    bundle.bytes().len() / NUMBER_BYTES - 1
}

fn number_above(random: &mut Random, bundle: &mut Bundle) {
    let range = *random.pick(&[3, usize::from(u16::MAX) - MAX_SHEETS]);
    bundle.number = (MAX_SHEETS + 1 + random.below(range)) as u16;
}

/// The number, with one of the bits from 512 up.
fn number_above_by_one_bit(random: &mut Random, bundle: &mut Bundle) {
    bundle.number |= 1 << (9 + random.below(7));
}

fn one_byte(_: &mut Random, bytes: &mut Vec<u8>) {
    bytes.truncate(1);
}

/// Random bytes, with a number of sheets whose trailer they may hold.
fn random_bytes_and_a_number(random: &mut Random, bytes: &mut Vec<u8>) {
    random.fill(bytes);
    let number = random.below(bytes.len() / NUMBER_BYTES + 1) as u16;
    if let Some(last) = bytes.last_chunk_mut() {
        *last = number.to_le_bytes();
    }
}

fn unfit_first_byte(random: &mut Random, sheets: &mut Vec<Vec<u8>>) {
    if let Some(first) = first_byte_in(random, sheets) {
        *first = *random.pick(&UNFIT_FIRST_BYTES);
    }
}

/// The first byte of a sheet of another length, as a rule.
fn fitting_first_byte(random: &mut Random, sheets: &mut Vec<Vec<u8>>) {
    if let Some(first) = first_byte_in(random, sheets) {
        *first = ABOVE_COUNT + random.below(MAX_SHEET - MIN_SHEET + 1) as u8;
    }
}

/// A sheet is as long as its first byte says, and too short or too long.
fn unfit_sheet(random: &mut Random, sheets: &mut Vec<Vec<u8>>) {
    if let Some(sheet) = sheet_in(random, sheets) {
        let length = *random.pick(&UNFIT_LENGTHS);
        *sheet = part(random, length);
    }
}

/// The last sheet lacks its last bytes, and may lack them all.
fn cut_off(random: &mut Random, sheets: &mut Vec<Vec<u8>>) {
    if let Some(last) = sheets.last_mut() {
        let cut = few_of(random, last.len());
        last.truncate(last.len() - cut);
    }
}

fn bytes_after(random: &mut Random, sheets: &mut Vec<Vec<u8>>) {
    let bytes = 1 + random.below(MIN_SHEET);
    sheets.push(random.bytes(bytes));
}

fn byte_inside(random: &mut Random, sheets: &mut Vec<Vec<u8>>) {
    if let Some(sheet) = sheet_in(random, sheets) {
        sheet.push(random.byte());
    }
}

fn random_sheet(random: &mut Random, sheets: &mut Vec<Vec<u8>>) {
    if let Some(sheet) = sheet_in(random, sheets) {
        random.fill(sheet);
    }
}
