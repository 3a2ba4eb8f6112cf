//! Damages of programs. Each may leave its object as it was.

// Damages have one type, whether or not they change a length.
#![allow(clippy::ptr_arg)]

use plain::layer::{Block, BLOCK_BYTES, MAX_BLOCKS, QUBITS};
use samples::Random;

use crate::damages::{
    byte_at_end, byte_at_front, cut_end, cut_front, flip_bit, no_bytes, other_length, random_bytes,
    swap_bytes, Damage,
};

use super::{any_blocks, FAR};

/// Numbers above 31: the next one, ones whose low part looks allowed, and the last.
const HIGH_QUBITS: [u8; 8] = [32, 33, 63, 64, 128, 160, 254, 255];

type BlockDamage = fn(&mut Random, &mut Vec<Block>);

/// Damages of the blocks of a program.
pub const BLOCK_DAMAGES: [BlockDamage; 10] = [
    put_high_qubit,
    put_high_qubit_twice,
    put_one_qubit_twice,
    lift_qubit,
    lift_all_qubits,
    more_blocks,
    blocks_again,
    without_a_block,
    swap_blocks,
    turn_block,
];

/// Damages of the bytes of a program.
pub const BYTE_DAMAGES: [Damage; 14] = [
    no_bytes,
    cut_end,
    cut_front,
    byte_at_end,
    byte_at_front,
    flip_bit,
    swap_bytes,
    random_bytes,
    other_length,
    without_last_byte,
    without_a_byte,
    byte_inside,
    repeat_byte,
    far_length,
];

/// A qubit that no program has.
pub fn high_qubit(random: &mut Random) -> u8 {
    if random.chance(2) {
        *random.pick(&HIGH_QUBITS)
    } else {
        QUBITS + random.below(usize::from(u8::MAX - QUBITS) + 1) as u8
    }
}

/// One of the blocks, if there are any: often the first, the last, or the last that there may be.
fn block_in<'a>(random: &mut Random, blocks: &'a mut [Block]) -> Option<&'a mut Block> {
    let last = blocks.len().checked_sub(1)?;
    let place = match random.below(8) {
        0 => 0,
        1 => last,
        2 => last.min(MAX_BLOCKS - 1 + random.below(2)),
        _ => random.below(blocks.len()),
    };
    blocks.get_mut(place)
}

/// One of a block's qubits.
fn qubit_in<'a>(random: &mut Random, blocks: &'a mut [Block]) -> Option<&'a mut u8> {
    let place = random.below(BLOCK_BYTES);
    block_in(random, blocks).map(|block| &mut block[place])
}

pub fn put_high_qubit(random: &mut Random, blocks: &mut Vec<Block>) {
    if let Some(qubit) = qubit_in(random, blocks) {
        *qubit = high_qubit(random);
    }
}

fn put_high_qubit_twice(random: &mut Random, blocks: &mut Vec<Block>) {
    if let Some(block) = block_in(random, blocks) {
        *block = [high_qubit(random); BLOCK_BYTES];
    }
}

pub fn put_one_qubit_twice(random: &mut Random, blocks: &mut Vec<Block>) {
    if let Some(block) = block_in(random, blocks) {
        *block = [*random.pick(block); BLOCK_BYTES];
    }
}

/// Sets a bit that no qubit has.
fn lift_qubit(random: &mut Random, blocks: &mut Vec<Block>) {
    if let Some(qubit) = qubit_in(random, blocks) {
        *qubit |= QUBITS << random.below(3);
    }
}

fn lift_all_qubits(random: &mut Random, blocks: &mut Vec<Block>) {
    let bit = QUBITS << random.below(3);
    let qubits = blocks.iter_mut().flatten();
    qubits.for_each(|qubit| *qubit |= bit);
}

/// The last block again, up to as many as there may be or just above, or any blocks behind.
fn more_blocks(random: &mut Random, blocks: &mut Vec<Block>) {
    if random.chance(2) {
        let number = MAX_BLOCKS + random.below(3);
        let last = blocks.last().copied().unwrap_or([0, 1]);
        blocks.resize(number, last);
    } else {
        blocks.extend(any_blocks(random));
    }
}

/// All of them, up to eight times.
fn blocks_again(random: &mut Random, blocks: &mut Vec<Block>) {
    *blocks = blocks.repeat(1 + random.below(8));
}

fn without_a_block(random: &mut Random, blocks: &mut Vec<Block>) {
    if !blocks.is_empty() {
        blocks.remove(random.below(blocks.len()));
    }
}

fn swap_blocks(random: &mut Random, blocks: &mut Vec<Block>) {
    if blocks.len() > 1 {
        let (i, j) = random.two_below(blocks.len());
        blocks.swap(i, j);
    }
}

fn turn_block(random: &mut Random, blocks: &mut Vec<Block>) {
    if let Some(block) = block_in(random, blocks) {
        block.reverse();
    }
}

fn without_last_byte(_: &mut Random, bytes: &mut Vec<u8>) {
    bytes.pop();
}

fn without_a_byte(random: &mut Random, bytes: &mut Vec<u8>) {
    if !bytes.is_empty() {
        bytes.remove(random.below(bytes.len()));
    }
}

fn byte_inside(random: &mut Random, bytes: &mut Vec<u8>) {
    let gap = random.below(bytes.len() + 1);
    bytes.insert(gap, random.below(QUBITS.into()) as u8);
}

fn repeat_byte(random: &mut Random, bytes: &mut Vec<u8>) {
    if !bytes.is_empty() {
        let place = random.below(bytes.len());
        bytes.insert(place, bytes[place]);
    }
}

/// The bytes again and again, up to a length above the most.
fn far_length(random: &mut Random, bytes: &mut Vec<u8>) {
    let length = *random.pick(&FAR);
    *bytes = bytes.iter().copied().cycle().take(length).collect();
}
