//! Operator files for the two calls that cut: accepted ones of both kinds and of every count, exponent and L,
//! and ones damaged in every way that documents 01 and 02 turn away.

// Damages have one type, whether or not they change the length.
#![allow(clippy::ptr_arg)]

use plain::file::{Kind, LONG_BYTES, MAX_EXPONENT, SHORT_BYTES};
use plain::matrix::{scale, SIZE};
use plain::operator::Operator;
use samples::{Random, Walk};

use crate::call::Call;
use crate::damages::{flip_bit, mixture, other_length, swap_bytes, Damage};
use crate::judge::Judge;

const INPUTS_PER_CALL: usize = 60_000;

/// How many operators of each L are drawn once, to be turned into more.
const STORED_PER_LOOSE: usize = 4;

/// A change of an operator, whose file will be of the given kind.
type Change = fn(&mut Random, &mut Operator, Kind);

const OPERATOR_CHANGES: [Change; 22] = [
    negate_row,
    negate_column,
    swap_rows,
    swap_columns,
    negate_two_rows,
    negate_all,
    copy_row,
    clear_row,
    double_row,
    add_row,
    shuffle_row,
    double_all,
    clear_all,
    shift_exponent,
    negate_entry,
    nudge_entry,
    limit_entry,
    extreme_entry,
    same_low_bits,
    square_of_low_bits,
    random_entry,
    random_entries,
];

const BYTE_CHANGES: [Damage; 5] = [
    flip_bits,
    swap_bytes,
    large_exponent,
    exponent_of_long_files,
    random_bytes,
];

const LENGTH_CHANGES: [Damage; 4] = [other_length, near_length, other_kind, random_length];

/// Lengths around those of the two kinds, between them and past them.
const NEAR_LENGTHS: [usize; 12] = [
    0,
    1,
    SHORT_BYTES - 1,
    SHORT_BYTES + 1,
    SHORT_BYTES + 2,
    LONG_BYTES - SHORT_BYTES,
    (SHORT_BYTES + LONG_BYTES) / 2,
    LONG_BYTES - 1,
    LONG_BYTES + 1,
    LONG_BYTES + 2,
    SHORT_BYTES + LONG_BYTES,
    2 * LONG_BYTES,
];

/// Runs both calls that read operator files.
pub fn run(judge: &mut Judge) {
    let store = by_loose(&mut Random::new(13));
    for (seed, call) in (1..).zip([Call::OperatorToSheet, Call::OperatorToGates]) {
        let mut random = Random::new(seed);
        for operator in &store {
            judge.run(call, &samples::file(operator));
        }
        for _ in 0..INPUTS_PER_CALL / 2 {
            let (operator, kind) = accepted(&mut random, &store);
            judge.run(call, &kind.file(&operator));
            judge.run(call, &damaged(&mut random, &store));
        }
    }
}

/// Operators of every L, of counts up to the largest.
fn by_loose(random: &mut Random) -> Vec<Operator> {
    let each = (0..MAX_EXPONENT).flat_map(|loose| [loose; STORED_PER_LOOSE]);
    each.map(|loose| {
        let count = loose + 1 + random.below(usize::from(MAX_EXPONENT - loose)) as u8;
        samples::operator_of_loose(random, count, loose)
    })
    .collect()
}

/// An accepted operator, at its least or a larger exponent, and a kind of file that has room for it.
fn accepted(random: &mut Random, store: &[Operator]) -> (Operator, Kind) {
    let kind = *random.pick(&[Kind::Short, Kind::Long, Kind::Long]);
    let count = random.below(usize::from(kind.max_exponent()) + 1) as u8;
    let operator = match random.below(8) {
        0 => Walk::reaching(random, count).product,
        1 | 2 => random.pick(store).times(&samples::clifford(random)),
        _ => samples::operator(random, count),
    };
    let kind = if operator.exponent <= kind.max_exponent() {
        kind
    } else {
        Kind::Long
    };
    if random.chance(2) {
        return (operator, kind);
    }
    (samples::inflated(random, &operator, kind), kind)
}

/// A file with one change or more.
fn damaged(random: &mut Random, store: &[Operator]) -> Vec<u8> {
    let [of_operator, of_bytes, of_length] = mixture(random);
    let (mut operator, kind) = accepted(random, store);
    for _ in 0..of_operator {
        random.pick(&OPERATOR_CHANGES)(random, &mut operator, kind);
    }
    let mut file = kind.file(&operator);
    for _ in 0..of_bytes {
        random.pick(&BYTE_CHANGES)(random, &mut file);
    }
    for _ in 0..of_length {
        random.pick(&LENGTH_CHANGES)(random, &mut file);
    }
    file
}

fn negate_row(random: &mut Random, operator: &mut Operator, _: Kind) {
    let row = &mut operator.matrix[random.below(SIZE)];
    *row = row.map(|entry| -entry);
}

fn negate_column(random: &mut Random, operator: &mut Operator, _: Kind) {
    let column = random.below(SIZE);
    operator
        .matrix
        .iter_mut()
        .for_each(|row| row[column] = -row[column]);
}

fn swap_rows(random: &mut Random, operator: &mut Operator, _: Kind) {
    let (i, j) = random.two_below(SIZE);
    operator.matrix.swap(i, j);
}

fn swap_columns(random: &mut Random, operator: &mut Operator, _: Kind) {
    let (i, j) = random.two_below(SIZE);
    operator.matrix.iter_mut().for_each(|row| row.swap(i, j));
}

fn negate_two_rows(random: &mut Random, operator: &mut Operator, _: Kind) {
    let (i, j) = random.two_below(SIZE);
    operator.matrix[i] = operator.matrix[i].map(|entry| -entry);
    operator.matrix[j] = operator.matrix[j].map(|entry| -entry);
}

/// Another operator, that agrees up to sign.
fn negate_all(_: &mut Random, operator: &mut Operator, _: Kind) {
    operator.matrix = scale(&operator.matrix, -1);
}

/// Leaves every product right but that of the two rows.
fn copy_row(random: &mut Random, operator: &mut Operator, _: Kind) {
    let (i, j) = random.two_below(SIZE);
    operator.matrix[i] = operator.matrix[j];
}

/// Leaves every product right but that of the row with itself.
fn clear_row(random: &mut Random, operator: &mut Operator, _: Kind) {
    operator.matrix[random.below(SIZE)] = [0; SIZE];
}

fn double_row(random: &mut Random, operator: &mut Operator, _: Kind) {
    let row = &mut operator.matrix[random.below(SIZE)];
    *row = row.map(|entry| 2 * entry);
}

fn add_row(random: &mut Random, operator: &mut Operator, _: Kind) {
    let (i, j) = random.two_below(SIZE);
    let added = operator.matrix[j];
    let row = &mut operator.matrix[i];
    row.iter_mut()
        .zip(added)
        .for_each(|(entry, more)| *entry += more);
}

fn shuffle_row(random: &mut Random, operator: &mut Operator, _: Kind) {
    let row = random.below(SIZE);
    random.shuffle(&mut operator.matrix[row]);
}

fn double_all(_: &mut Random, operator: &mut Operator, _: Kind) {
    operator.matrix = scale(&operator.matrix, 2);
}

fn clear_all(_: &mut Random, operator: &mut Operator, _: Kind) {
    operator.matrix = scale(&operator.matrix, 0);
}

fn shift_exponent(random: &mut Random, operator: &mut Operator, _: Kind) {
    let shift = *random.pick(&[-2, -1, 1, 2]);
    operator.exponent = operator.exponent.saturating_add_signed(shift);
}

fn negate_entry(random: &mut Random, operator: &mut Operator, _: Kind) {
    let entry = entry_of(random, operator);
    *entry = -*entry;
}

fn nudge_entry(random: &mut Random, operator: &mut Operator, _: Kind) {
    let nudge = *random.pick(&[-2, -1, 1, 2]);
    *entry_of(random, operator) += nudge;
}

/// The largest entry that refusal 3 lets pass, or one more, of either sign.
fn limit_entry(random: &mut Random, operator: &mut Operator, _: Kind) {
    let limit = (1i64 << operator.exponent.min(MAX_EXPONENT)).isqrt();
    let entry = limit + random.below(2) as i64;
    *entry_of(random, operator) = if random.chance(2) { -entry } else { entry };
}

fn extreme_entry(random: &mut Random, operator: &mut Operator, kind: Kind) {
    let (lowest, highest) = kind.range();
    let middle = highest / 2 + 1;
    let extremes = [lowest, lowest + 1, highest, -middle, middle, -256, 255];
    *entry_of(random, operator) = *random.pick(&extremes);
}

/// Leaves the low 16 bits, and with them all of a short file.
fn same_low_bits(random: &mut Random, operator: &mut Operator, _: Kind) {
    let above = (1 << random.below(15)) * *random.pick(&[-1, 1]);
    *entry_of(random, operator) += above << 16;
}

/// An entry of a long file whose square, in its low 32 bits, is 0, small or negative.
fn square_of_low_bits(random: &mut Random, operator: &mut Operator, _: Kind) {
    let entry = match random.below(3) {
        0 => (1 + random.below(1 << 14) as i64) << 16,
        1 => (1 << (16 + random.below(15))) + *random.pick(&[-1, 1]),
        _ => 46_341 + random.below(1 << 14) as i64,
    };
    *entry_of(random, operator) = if random.chance(2) { -entry } else { entry };
}

fn random_entry(random: &mut Random, operator: &mut Operator, kind: Kind) {
    let (lowest, highest) = kind.range();
    let entries = (highest - lowest + 1) as usize;
    *entry_of(random, operator) = lowest + random.below(entries) as i64;
}

/// Entries that all pass refusal 3.
fn random_entries(random: &mut Random, operator: &mut Operator, _: Kind) {
    let limit = (1i64 << operator.exponent.min(MAX_EXPONENT)).isqrt();
    let mut entry = || random.below(2 * limit as usize + 1) as i64 - limit;
    operator.matrix = operator.matrix.map(|row| row.map(|_| entry()));
}

fn entry_of<'a>(random: &mut Random, operator: &'a mut Operator) -> &'a mut i64 {
    &mut operator.matrix[random.below(SIZE)][random.below(SIZE)]
}

fn flip_bits(random: &mut Random, file: &mut Vec<u8>) {
    for _ in 0..1 + random.below(3) {
        flip_bit(random, file);
    }
}

/// An exponent above the largest of the kind.
fn large_exponent(random: &mut Random, file: &mut Vec<u8>) {
    let next = usize::from(kind_of(file).max_exponent()) + 1;
    let above = if random.chance(2) {
        *random.pick(&[next, next + 1, next + 2, next + 3, 127, 128, 255])
    } else {
        next + random.below(256 - next)
    };
    file[0] = above as u8;
}

/// An exponent that a long file alone may have.
fn exponent_of_long_files(random: &mut Random, file: &mut Vec<u8>) {
    let [short, long] = Kind::ALL.map(|kind| usize::from(kind.max_exponent()));
    file[0] = (short + 1 + random.below(long - short)) as u8;
}

fn random_bytes(random: &mut Random, file: &mut Vec<u8>) {
    random.fill(file);
    file[0] %= kind_of(file).max_exponent() + 4;
}

fn kind_of(file: &[u8]) -> Kind {
    Kind::of_length(file.len()).expect("lengths change last")
}

fn near_length(random: &mut Random, file: &mut Vec<u8>) {
    file.resize(*random.pick(&NEAR_LENGTHS), 0);
}

/// The length of the other kind, with the bytes of the one, and zeros behind a short one.
fn other_kind(_: &mut Random, file: &mut Vec<u8>) {
    let other = match Kind::of_length(file.len()) {
        Some(Kind::Short) => Kind::Long,
        _ => Kind::Short,
    };
    file.resize(other.bytes(), 0);
}

fn random_length(random: &mut Random, file: &mut Vec<u8>) {
    file.resize(random.below(2 * LONG_BYTES), 0);
}
