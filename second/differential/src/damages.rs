//! Damages of bytes, whatever these are. Each may leave them as they were.

// Damages have one type, whether or not they change the length.
#![allow(clippy::ptr_arg)]

use samples::Random;

/// A change of bytes.
pub type Damage = fn(&mut Random, &mut Vec<u8>);

pub fn no_bytes(_: &mut Random, bytes: &mut Vec<u8>) {
    bytes.clear();
}

pub fn cut_end(random: &mut Random, bytes: &mut Vec<u8>) {
    let cut = few_of(random, bytes.len());
    bytes.truncate(bytes.len() - cut);
}

pub fn cut_front(random: &mut Random, bytes: &mut Vec<u8>) {
    let cut = few_of(random, bytes.len());
    bytes.drain(..cut);
}

/// Up to three of so many, or any number of them.
pub fn few_of(random: &mut Random, len: usize) -> usize {
    let limit = if random.chance(2) { 3 } else { len };
    random.below(limit + 1).min(len)
}

pub fn byte_at_end(random: &mut Random, bytes: &mut Vec<u8>) {
    bytes.push(zero_or_any(random));
}

pub fn byte_at_front(random: &mut Random, bytes: &mut Vec<u8>) {
    bytes.insert(0, zero_or_any(random));
}

fn zero_or_any(random: &mut Random) -> u8 {
    if random.chance(2) {
        0
    } else {
        random.byte()
    }
}

pub fn flip_bit(random: &mut Random, bytes: &mut Vec<u8>) {
    if !bytes.is_empty() {
        let place = random.below(bytes.len());
        bytes[place] ^= 1 << random.below(8);
    }
}

pub fn swap_bytes(random: &mut Random, bytes: &mut Vec<u8>) {
    if bytes.len() > 1 {
        let (i, j) = random.two_below(bytes.len());
        bytes.swap(i, j);
    }
}

pub fn random_bytes(random: &mut Random, bytes: &mut Vec<u8>) {
    random.fill(bytes);
}

/// A byte more or less, or a few.
pub fn other_length(random: &mut Random, bytes: &mut Vec<u8>) {
    let change = 1 + random.below(3);
    if random.chance(2) {
        bytes.truncate(bytes.len().saturating_sub(change));
    } else {
        bytes.extend(random.bytes(change));
    }
}

/// How many changes there are of the matrix, of its bytes, and of their length.
pub fn mixture(random: &mut Random) -> [usize; 3] {
    match random.below(20) {
        0..=9 => [1, 0, 0],
        10..=12 => [2, 0, 0],
        13 | 14 => [0, 1, 0],
        15 => [0, 2, 0],
        16 => [0, 0, 1],
        17 => [1, 1, 0],
        18 => [1, 0, 1],
        _ => [1, 1, 1],
    }
}
