//! The promise of the layers that were written for a program, by document 02, P13. It is looked for in the
//! layers themselves, whatever the rule by which they were found.

use std::collections::HashSet;

use plain::layer::{Block, MAX_BLOCKS, QUBITS};

use crate::gates::demand;

/// Answers what is wrong with the layers of a program that was accepted, or with their number, if anything is.
pub fn check(program: &[u8], layers: &[u8], number: usize) -> Result<(), &'static str> {
    let (blocks, rest) = program.as_chunks();
    let fits = rest.is_empty() && blocks.len() <= MAX_BLOCKS;
    demand(fits, "a program of a wrong length is accepted")?;
    let on_two = blocks.iter().all(is_on_two_qubits);
    demand(on_two, "a block that is not on two qubits is accepted")?;
    let in_order = (0..QUBITS).all(|qubit| rise_on(qubit, blocks, layers));
    demand(
        in_order,
        "of two blocks that share a qubit the later one is in no higher layer",
    )?;
    let as_early = (0..blocks.len()).all(|n| is_held_back(blocks, layers, n));
    demand(as_early, "a block is in a later layer than it has to be")?;
    let different: HashSet<_> = layers.iter().collect();
    demand(
        number == different.len(),
        "the answer is not the number of different layers",
    )
}

fn is_on_two_qubits(block: &Block) -> bool {
    block.iter().all(|qubit| (0..QUBITS).contains(qubit)) && block[0] != block[1]
}

/// Whether each block on the qubit is in a higher layer than the one before it.
fn rise_on(qubit: u8, blocks: &[Block], layers: &[u8]) -> bool {
    let on_it = blocks.iter().zip(layers);
    let on_it = on_it.filter(|(block, _)| block.contains(&qubit));
    on_it
        .map(|(_, layer)| layer)
        .is_sorted_by(|one, next| one < next)
}

/// Whether block n is in the first layer, or an earlier block that shares a qubit with it is in the layer
/// right below.
fn is_held_back(blocks: &[Block], layers: &[u8], n: usize) -> bool {
    let [first, second] = &blocks[n];
    let shares = |other: &Block| other.contains(first) || other.contains(second);
    let right_below = |earlier: usize| layers[earlier].checked_add(1) == Some(layers[n]);
    layers[n] == 0 || (0..n).any(|earlier| shares(&blocks[earlier]) && right_below(earlier))
}

#[cfg(test)]
mod tests {
    use super::*;

    /// What is wrong with these layers of the program 0 1, 2 3, 1 2, 3 4 and with their number.
    fn fault(layers: [u8; 4], number: usize) -> Option<&'static str> {
        check(&[0, 1, 2, 3, 1, 2, 3, 4], &layers, number).err()
    }

    #[test]
    fn the_promise_is_kept() {
        assert_eq!(fault([0, 0, 1, 1], 2), None);
        assert_eq!(check(&[], &[], 0), Ok(()));
    }

    #[test]
    fn a_broken_promise_is_found() {
        let order = Some("of two blocks that share a qubit the later one is in no higher layer");
        let late = Some("a block is in a later layer than it has to be");
        let number = Some("the answer is not the number of different layers");
        assert_eq!(fault([0, 0, 0, 1], 2), order);
        assert_eq!(fault([0, 0, 1, 0], 2), order);
        assert_eq!(fault([1, 0, 0, 1], 2), order);
        assert_eq!(fault([0, 0, 1, 2], 3), late);
        assert_eq!(fault([1, 1, 2, 2], 2), late);
        assert_eq!(fault([0, 1, 2, 2], 3), late);
        assert_eq!(fault([0, 0, 1, 1], 1), number);
        assert_eq!(fault([0, 0, 1, 1], 3), number);
    }

    #[test]
    fn a_wrong_program_is_found() {
        let length = Err("a program of a wrong length is accepted");
        let block = Err("a block that is not on two qubits is accepted");
        let layers: Vec<u8> = (0..65).collect();
        assert_eq!(check(&[0, 1, 2], &[0], 1), length);
        assert_eq!(check(&[0, 1].repeat(65), &layers, 65), length);
        assert_eq!(check(&[0, 32], &[0], 1), block);
        assert_eq!(check(&[32, 0], &[0], 1), block);
        assert_eq!(check(&[5, 5], &[0], 1), block);
    }
}
