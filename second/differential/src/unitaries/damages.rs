//! Changes of a unitary, of its bytes and of their length. Some leave it unitary.

// Changes of bytes have one type, whether or not they change the length.
#![allow(clippy::ptr_arg)]

use plain::omega::Number;
use plain::unitary::{scale, transpose, Unitary, MAX_EXPONENT, SIZE};
use samples::Random;

use crate::damages::{flip_bit, other_length, swap_bytes, Damage};

pub const UNITARY_CHANGES: [fn(&mut Random, &mut Unitary); 25] = [
    turn_row,
    turn_column,
    swap_rows,
    swap_columns,
    transpose_all,
    conjugate_all,
    conjugate_row,
    conjugate_column,
    conjugate_entry,
    exchange_parts,
    exchange_parts_of_all,
    copy_row,
    copy_turned_row,
    clear_row,
    double_row,
    add_row,
    shuffle_row,
    double_all,
    clear_all,
    orthogonal_without_conjugates,
    shift_exponent,
    nudge_entry,
    limit_entry,
    extreme_entry,
    random_entries,
];

pub const BYTE_CHANGES: [Damage; 4] = [flip_bit, swap_bytes, large_exponent, random_bytes];

pub const LENGTH_CHANGES: [Damage; 2] = [other_length, random_length];

const UNITS: [Number; 4] = [
    Number::ONE,
    Number::I,
    Number::ONE.negative(),
    Number::I.negative(),
];

/// Its rows are orthonormal if no conjugates are taken, and not if they are.
pub const WITHOUT_CONJUGATES: [[(i64, i64); SIZE]; SIZE] = [
    [(1, 0), (1, 0), (0, 1), (0, 0)],
    [(1, 0), (-1, 0), (0, 0), (0, 1)],
    [(0, 0), (0, -1), (1, 0), (-1, 0)],
    [(0, -1), (0, 0), (1, 0), (1, 0)],
];

/// Leaves it unitary.
fn turn_row(random: &mut Random, unitary: &mut Unitary) {
    let unit = *random.pick(&UNITS);
    let row = &mut unitary.matrix[random.below(SIZE)];
    *row = row.map(|entry| entry.times(unit));
}

/// Leaves it unitary.
fn turn_column(random: &mut Random, unitary: &mut Unitary) {
    let unit = *random.pick(&UNITS);
    let column = random.below(SIZE);
    for row in &mut unitary.matrix {
        row[column] = row[column].times(unit);
    }
}

/// Leaves it unitary.
fn swap_rows(random: &mut Random, unitary: &mut Unitary) {
    let (i, j) = random.two_below(SIZE);
    unitary.matrix.swap(i, j);
}

/// Leaves it unitary.
fn swap_columns(random: &mut Random, unitary: &mut Unitary) {
    let (i, j) = random.two_below(SIZE);
    unitary.matrix.iter_mut().for_each(|row| row.swap(i, j));
}

/// Leaves it unitary.
fn transpose_all(_: &mut Random, unitary: &mut Unitary) {
    unitary.matrix = transpose(&unitary.matrix);
}

/// Leaves it unitary.
fn conjugate_all(_: &mut Random, unitary: &mut Unitary) {
    unitary.matrix = unitary.matrix.map(|row| row.map(Number::conjugate));
}

/// Leaves every product of a row with itself right.
fn conjugate_row(random: &mut Random, unitary: &mut Unitary) {
    let row = &mut unitary.matrix[random.below(SIZE)];
    *row = row.map(Number::conjugate);
}

/// Leaves every product of a row with itself right.
fn conjugate_column(random: &mut Random, unitary: &mut Unitary) {
    let column = random.below(SIZE);
    for row in &mut unitary.matrix {
        row[column] = row[column].conjugate();
    }
}

fn conjugate_entry(random: &mut Random, unitary: &mut Unitary) {
    let entry = entry_of(random, unitary);
    *entry = entry.conjugate();
}

fn exchange_parts(random: &mut Random, unitary: &mut Unitary) {
    let entry = entry_of(random, unitary);
    *entry = exchanged(*entry);
}

/// Leaves it unitary: every entry becomes i times its conjugate.
fn exchange_parts_of_all(_: &mut Random, unitary: &mut Unitary) {
    unitary.matrix = unitary.matrix.map(|row| row.map(exchanged));
}

fn exchanged(entry: Number) -> Number {
    entry.conjugate().times(Number::I)
}

/// Leaves every product right but that of the two rows, which is real.
fn copy_row(random: &mut Random, unitary: &mut Unitary) {
    let (i, j) = random.two_below(SIZE);
    unitary.matrix[i] = unitary.matrix[j];
}

/// The same with a product that may be imaginary.
fn copy_turned_row(random: &mut Random, unitary: &mut Unitary) {
    let (i, j) = random.two_below(SIZE);
    let unit = *random.pick(&UNITS);
    unitary.matrix[i] = unitary.matrix[j].map(|entry| entry.times(unit));
}

/// Leaves every product right but that of the row with itself.
fn clear_row(random: &mut Random, unitary: &mut Unitary) {
    unitary.matrix[random.below(SIZE)] = [Number::ZERO; SIZE];
}

fn double_row(random: &mut Random, unitary: &mut Unitary) {
    let row = &mut unitary.matrix[random.below(SIZE)];
    *row = row.map(|entry| entry.plus(entry));
}

fn add_row(random: &mut Random, unitary: &mut Unitary) {
    let (i, j) = random.two_below(SIZE);
    let added = unitary.matrix[j];
    let row = &mut unitary.matrix[i];
    row.iter_mut()
        .zip(added)
        .for_each(|(entry, more)| *entry = entry.plus(more));
}

fn shuffle_row(random: &mut Random, unitary: &mut Unitary) {
    let row = random.below(SIZE);
    random.shuffle(&mut unitary.matrix[row]);
}

fn double_all(_: &mut Random, unitary: &mut Unitary) {
    unitary.matrix = scale(&unitary.matrix, Number::gaussian(2, 0));
}

fn clear_all(_: &mut Random, unitary: &mut Unitary) {
    unitary.matrix = scale(&unitary.matrix, Number::ZERO);
}

/// All entries pass refusal 18.
fn orthogonal_without_conjugates(random: &mut Random, unitary: &mut Unitary) {
    let rows = WITHOUT_CONJUGATES.map(|row| row.map(|(re, im)| Number::gaussian(re, im)));
    let doublings = random.below(usize::from(MAX_EXPONENT) / 2 + 1);
    unitary.matrix = scale(&rows, Number::gaussian(1 << doublings, 0));
    unitary.exponent = 2 * doublings as u8;
    random.shuffle(&mut unitary.matrix);
}

fn shift_exponent(random: &mut Random, unitary: &mut Unitary) {
    let shift = *random.pick(&[-2, -1, 1, 2]);
    unitary.exponent = unitary.exponent.saturating_add_signed(shift);
}

fn nudge_entry(random: &mut Random, unitary: &mut Unitary) {
    let nudge = *random.pick(&UNITS);
    let entry = entry_of(random, unitary);
    *entry = entry.plus(nudge);
}

/// An entry whose squared size is as large as refusal 18 lets pass, or its real or imaginary part one
/// further from 0.
fn limit_entry(random: &mut Random, unitary: &mut Unitary) {
    let most = 1i64 << unitary.exponent.min(MAX_EXPONENT);
    let re = random.below(most.isqrt() as usize + 1) as i64;
    let im = (most - re * re).isqrt();
    let (re, im) = match random.below(3) {
        0 => (re, im),
        1 => (re + 1, im),
        _ => (re, im + 1),
    };
    let unit = *random.pick(&UNITS);
    *entry_of(random, unitary) = Number::gaussian(re, im).times(unit);
}

fn extreme_entry(random: &mut Random, unitary: &mut Unitary) {
    let extremes = [i16::MIN, i16::MIN + 1, i16::MAX, -256, 255, 0];
    let mut part = || i64::from(*random.pick(&extremes));
    let extreme = Number::gaussian(part(), part());
    *entry_of(random, unitary) = extreme;
}

/// Entries that all pass refusal 18.
fn random_entries(random: &mut Random, unitary: &mut Unitary) {
    let most = 1i64 << unitary.exponent.min(MAX_EXPONENT);
    let limit = (most / 2).isqrt();
    let mut part = || random.below(2 * limit as usize + 1) as i64 - limit;
    let mut entry = || Number::gaussian(part(), part());
    unitary.matrix = unitary.matrix.map(|row| row.map(|_| entry()));
}

fn entry_of<'a>(random: &mut Random, unitary: &'a mut Unitary) -> &'a mut Number {
    &mut unitary.matrix[random.below(SIZE)][random.below(SIZE)]
}

/// An exponent above the largest.
fn large_exponent(random: &mut Random, bytes: &mut Vec<u8>) {
    let above = [30, 30, 30, 31, 32, 45, 60, 61, 64, 128, 255];
    bytes[0] = *random.pick(&above);
}

fn random_bytes(random: &mut Random, bytes: &mut Vec<u8>) {
    random.fill(bytes);
    bytes[0] %= 32;
}

fn random_length(random: &mut Random, bytes: &mut Vec<u8>) {
    bytes.resize(random.below(150), 0);
}
