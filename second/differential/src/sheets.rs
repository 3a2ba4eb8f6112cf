//! Sheets: those of operators of every count, and ones damaged in every way that documents 01 and 02
//! turn away.

// Damages have one type, whether or not they change the length.
#![allow(clippy::ptr_arg)]

use plain::file::MAX_EXPONENT;
use plain::generator::GENERATOR_COUNT;
use plain::matrix::SIZE;
use plain::sheet::{ABOVE_LENGTH, MAX_SHEET, MINUS, MIN_SHEET};
use samples::Random;

use crate::call::Call;
use crate::damages::{flip_bit, Damage};
use crate::judge::Judge;

const INPUTS: usize = 60_000;
const PAIRS_PER_LENGTH: usize = 60;
const LENGTHS: std::ops::RangeInclusive<usize> = 0..=MAX_SHEET + 6;

const BAD_GENERATORS: [u8; 8] = [0, 16, 17, 127, 128, 129, 143, 255];
const BAD_COLUMNS: [u8; 8] = [0, 7, 8, 127, 128, 135, 136, 255];
const BAD_LAST_BYTES: [u8; 8] = [2, 3, 4, 127, 128, 129, 254, 255];
const OTHER_FIRST_BYTES: [usize; 10] = [0, 1, 15, 63, 64, 92, 93, 124, 125, 255];

const DAMAGES: [Damage; 33] = [
    bad_generator,
    bad_column,
    bad_generator_and_repeated,
    bad_column_and_repeated,
    repeat_column,
    repeat_column_with_sign,
    swap_columns,
    negate_column,
    negate_two_columns,
    equal_neighbours,
    swap_generators,
    other_generator,
    insert_generator,
    remove_generator,
    random_generators,
    other_last_byte,
    bad_last_byte,
    negate_all_columns,
    negate_all_columns_and_sign,
    negate_column_1_and_another,
    wrong_sign_and_bad_byte,
    wrong_sign_and_no_clifford,
    wrong_sign_and_other_sheet,
    without_last_byte,
    other_first_byte,
    next_first_byte,
    count_first,
    length_first,
    without_first_byte,
    without_first_and_last_byte,
    wrong_count_and_more,
    flip_bit,
    random_sheet,
];

/// Damages that earn 11, where the sheet has such a byte.
const BAD_BYTES: [Damage; 2] = [bad_generator, bad_column];

/// Damages that earn 12.
const NO_CLIFFORDS: [Damage; 4] = [
    repeat_column,
    repeat_column_with_sign,
    swap_columns,
    negate_column,
];

/// Damages that earn 15.
const WRONG_SIGNS: [Damage; 4] = [
    bad_last_byte,
    negate_all_columns,
    negate_all_columns_and_sign,
    negate_column_1_and_another,
];

/// Damages that earn 16, as a rule.
const WRONG_COUNTS: [Damage; 4] = [other_first_byte, next_first_byte, count_first, length_first];

/// Damages that earn what is asked after 16: 11, 12, 15 and 13.
const LATER: [&[Damage]; 4] = [&BAD_BYTES, &NO_CLIFFORDS, &WRONG_SIGNS, &[equal_neighbours]];

/// Runs the call that reads sheets.
pub fn run(judge: &mut Judge) {
    let mut random = Random::new(4);
    for _ in 0..INPUTS / 2 {
        let count = random.below(usize::from(MAX_EXPONENT) + 1) as u8;
        let mut sheet = samples::sheet(&mut random, count);
        judge.run(Call::SheetToOperator, &sheet);
        let times = if random.chance(4) { 2 } else { 1 };
        for _ in 0..times {
            random.pick(&DAMAGES)(&mut random, &mut sheet);
        }
        judge.run(Call::SheetToOperator, &sheet);
    }
    for len in LENGTHS {
        for _ in 0..PAIRS_PER_LENGTH {
            let mut sheet = of_length(&mut random, len);
            judge.run(Call::SheetToOperator, &sheet);
            random.pick(&DAMAGES)(&mut random, &mut sheet);
            judge.run(Call::SheetToOperator, &sheet);
        }
    }
}

/// The sheet of a Clifford, or as much of it as the length leaves, with random generators in it and the
/// first byte of the length.
fn of_length(random: &mut Random, len: usize) -> Vec<u8> {
    let mut sheet = samples::sheet(random, 0);
    sheet.truncate(len);
    while sheet.len() < len {
        sheet.insert(1, generator(random));
    }
    say_length(&mut sheet);
    sheet
}

/// Puts the byte of a small number first.
fn say(number: usize, sheet: &mut [u8]) {
    if let Some(first) = sheet.first_mut() {
        *first = number as u8;
    }
}

/// Puts the byte first that belongs to the length.
fn say_length(sheet: &mut [u8]) {
    say(sheet.len() + ABOVE_LENGTH, sheet);
}

/// The number of generator bytes; none in what is shorter than a sheet.
fn count(sheet: &[u8]) -> usize {
    sheet.len().saturating_sub(MIN_SHEET)
}

/// The place of a generator, if there is one.
fn generator_place(random: &mut Random, sheet: &[u8]) -> Option<usize> {
    (count(sheet) > 0).then(|| 1 + random.below(count(sheet)))
}

/// The place of column 1, if there are the first byte, six columns and the last byte.
fn column_1(sheet: &[u8]) -> Option<usize> {
    (sheet.len() >= MIN_SHEET).then(|| 1 + count(sheet))
}

/// The places of two different columns, if there are any.
fn column_places(random: &mut Random, sheet: &[u8]) -> Option<(usize, usize)> {
    let first = column_1(sheet)?;
    let (i, j) = random.two_below(SIZE);
    Some((first + i, first + j))
}

fn generator(random: &mut Random) -> u8 {
    1 + random.below(GENERATOR_COUNT) as u8
}

fn bad_generator(random: &mut Random, sheet: &mut Vec<u8>) {
    if let Some(place) = generator_place(random, sheet) {
        sheet[place] = *random.pick(&BAD_GENERATORS);
    }
}

fn bad_column(random: &mut Random, sheet: &mut Vec<u8>) {
    if let Some((place, _)) = column_places(random, sheet) {
        sheet[place] = *random.pick(&BAD_COLUMNS);
    }
}

fn bad_generator_and_repeated(random: &mut Random, sheet: &mut Vec<u8>) {
    bad_generator(random, sheet);
    repeat_column(random, sheet);
}

fn bad_column_and_repeated(random: &mut Random, sheet: &mut Vec<u8>) {
    repeat_column(random, sheet);
    bad_column(random, sheet);
}

fn repeat_column(random: &mut Random, sheet: &mut Vec<u8>) {
    if let Some((i, j)) = column_places(random, sheet) {
        sheet[i] = sheet[j];
    }
}

fn repeat_column_with_sign(random: &mut Random, sheet: &mut Vec<u8>) {
    if let Some((i, j)) = column_places(random, sheet) {
        sheet[i] = sheet[j] ^ MINUS;
    }
}

fn swap_columns(random: &mut Random, sheet: &mut Vec<u8>) {
    if let Some((i, j)) = column_places(random, sheet) {
        sheet.swap(i, j);
    }
}

fn negate_column(random: &mut Random, sheet: &mut Vec<u8>) {
    if let Some((i, _)) = column_places(random, sheet) {
        sheet[i] ^= MINUS;
    }
}

/// Another Clifford; the sheet of another operator unless column 1 is one of the two.
fn negate_two_columns(random: &mut Random, sheet: &mut Vec<u8>) {
    if let Some((i, j)) = column_places(random, sheet) {
        sheet[i] ^= MINUS;
        sheet[j] ^= MINUS;
    }
}

fn equal_neighbours(random: &mut Random, sheet: &mut Vec<u8>) {
    if count(sheet) > 1 {
        let place = 1 + random.below(count(sheet) - 1);
        sheet[place] = sheet[place + 1];
    }
}

fn swap_generators(random: &mut Random, sheet: &mut Vec<u8>) {
    if count(sheet) > 1 {
        let (i, j) = random.two_below(count(sheet));
        sheet.swap(1 + i, 1 + j);
    }
}

fn other_generator(random: &mut Random, sheet: &mut Vec<u8>) {
    if let Some(place) = generator_place(random, sheet) {
        sheet[place] = generator(random);
    }
}

fn insert_generator(random: &mut Random, sheet: &mut Vec<u8>) {
    if !sheet.is_empty() {
        let place = 1 + random.below(count(sheet) + 1);
        sheet.insert(place, generator(random));
        say_length(sheet);
    }
}

fn remove_generator(random: &mut Random, sheet: &mut Vec<u8>) {
    if let Some(place) = generator_place(random, sheet) {
        sheet.remove(place);
        say_length(sheet);
    }
}

/// Few generators, so that the sheet is often that of its operator.
fn random_generators(random: &mut Random, sheet: &mut Vec<u8>) {
    let len = MIN_SHEET + random.below(5);
    *sheet = of_length(random, len);
}

/// The sheet of the negative.
fn other_last_byte(_: &mut Random, sheet: &mut Vec<u8>) {
    if let Some(last) = sheet.last_mut() {
        *last ^= 1;
    }
}

fn bad_last_byte(random: &mut Random, sheet: &mut Vec<u8>) {
    if let Some(last) = sheet.last_mut() {
        *last = if random.chance(2) {
            *random.pick(&BAD_LAST_BYTES)
        } else {
            2 + random.below(254) as u8
        };
    }
}

/// Multiplies to the negative, as the other last byte would.
fn negate_all_columns(_: &mut Random, sheet: &mut Vec<u8>) {
    if let Some(first) = column_1(sheet) {
        sheet[first..first + SIZE]
            .iter_mut()
            .for_each(|column| *column ^= MINUS);
    }
}

/// Multiplies to the same operator.
fn negate_all_columns_and_sign(random: &mut Random, sheet: &mut Vec<u8>) {
    negate_all_columns(random, sheet);
    other_last_byte(random, sheet);
}

fn negate_column_1_and_another(random: &mut Random, sheet: &mut Vec<u8>) {
    if let Some(first) = column_1(sheet) {
        sheet[first] ^= MINUS;
        sheet[first + 1 + random.below(SIZE - 1)] ^= MINUS;
    }
}

fn wrong_sign(random: &mut Random, sheet: &mut Vec<u8>) {
    random.pick(&WRONG_SIGNS)(random, sheet);
}

fn wrong_sign_and_bad_byte(random: &mut Random, sheet: &mut Vec<u8>) {
    wrong_sign(random, sheet);
    random.pick(&BAD_BYTES)(random, sheet);
}

fn wrong_sign_and_no_clifford(random: &mut Random, sheet: &mut Vec<u8>) {
    wrong_sign(random, sheet);
    random.pick(&NO_CLIFFORDS)(random, sheet);
}

/// Equal neighbours, for which cutting gives another sheet, and a wrong sign.
fn wrong_sign_and_other_sheet(random: &mut Random, sheet: &mut Vec<u8>) {
    wrong_sign(random, sheet);
    equal_neighbours(random, sheet);
}

/// The last generator is read as column 1, and each column as the next one.
fn without_last_byte(_: &mut Random, sheet: &mut Vec<u8>) {
    sheet.pop();
    say_length(sheet);
}

fn other_first_byte(random: &mut Random, sheet: &mut Vec<u8>) {
    let other = if random.chance(2) {
        *random.pick(&OTHER_FIRST_BYTES)
    } else {
        random.below(256)
    };
    say(other, sheet);
}

/// The first byte of a sheet that is one byte longer or shorter.
fn next_first_byte(random: &mut Random, sheet: &mut Vec<u8>) {
    if let Some(first) = sheet.first_mut() {
        let step = if random.chance(2) { 1 } else { 255 };
        *first = first.wrapping_add(step);
    }
}

/// The count, without 64 added.
fn count_first(_: &mut Random, sheet: &mut Vec<u8>) {
    say(count(sheet), sheet);
}

fn length_first(_: &mut Random, sheet: &mut Vec<u8>) {
    say(sheet.len(), sheet);
}

/// A sheet of P2.
fn without_first_byte(_: &mut Random, sheet: &mut Vec<u8>) {
    if !sheet.is_empty() {
        sheet.remove(0);
    }
}

/// A sheet of document 01.
fn without_first_and_last_byte(random: &mut Random, sheet: &mut Vec<u8>) {
    if sheet.last() == Some(&1) {
        negate_all_columns(random, sheet);
    }
    without_first_byte(random, sheet);
    sheet.pop();
}

fn wrong_count_and_more(random: &mut Random, sheet: &mut Vec<u8>) {
    random.pick(&WRONG_COUNTS)(random, sheet);
    let later = random.pick(&LATER);
    random.pick(later)(random, sheet);
}

/// Random bytes, behind the right first byte or a random one too.
fn random_sheet(random: &mut Random, sheet: &mut Vec<u8>) {
    random.fill(sheet);
    if random.chance(2) {
        say_length(sheet);
    }
}
