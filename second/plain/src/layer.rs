//! Layers of a program, by document 02, P13: blocks that share a qubit keep their order, blocks in a layer
//! share none, and no block stands in a later layer than that calls for.

use crate::refusal;

/// The most blocks of a program.
pub const MAX_BLOCKS: usize = 64;

/// The number of qubits, which are numbered from 0.
pub const QUBITS: u8 = 32;

/// The bytes of a block.
pub const BLOCK_BYTES: usize = 2;

/// A block, by its two qubits.
pub type Block = [u8; BLOCK_BYTES];

/// The blocks of a program.
pub fn read(program: &[u8]) -> Result<&[Block], u8> {
    let (blocks, rest) = program.as_chunks();
    if !rest.is_empty() || blocks.len() > MAX_BLOCKS {
        return Err(refusal::PROGRAM_LENGTH);
    }
    if !blocks.iter().all(is_on_two_qubits) {
        return Err(refusal::BLOCK_QUBITS);
    }
    Ok(blocks)
}

/// The layer of each block: the lowest above those of all earlier blocks that share a qubit with it.
pub fn of_blocks(blocks: &[Block]) -> Vec<u8> {
    let mut layers: Vec<u8> = Vec::new();
    for block in blocks {
        let earlier = blocks.iter().zip(&layers);
        let waited_for = earlier.filter(|(other, _)| share_a_qubit(other, block));
        let above = waited_for.map(|(_, layer)| layer + 1);
        layers.push(above.max().unwrap_or(0));
    }
    layers
}

/// How many different layers there are.
pub fn different(layers: &[u8]) -> u8 {
    let mut different = layers.to_vec();
    different.sort_unstable();
    different.dedup();
    different.len() as u8
}

/// Whether two blocks are on a common qubit.
fn share_a_qubit(one: &Block, other: &Block) -> bool {
    one.iter().any(|qubit| other.contains(qubit))
}

fn is_on_two_qubits(&[first, second]: &Block) -> bool {
    first < QUBITS && second < QUBITS && first != second
}
