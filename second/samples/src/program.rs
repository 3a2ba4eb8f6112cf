//! Programs with a wanted number of blocks and of layers, or on a wanted number of qubits.

use plain::layer::{Block, QUBITS};

use crate::Random;

/// The most blocks that share no qubit.
pub const MAX_BLOCKS_PER_LAYER: usize = QUBITS as usize / 2;

/// How often neighbours are exchanged for each block.
const EXCHANGES_PER_BLOCK: usize = 8;

/// Blocks in list order, and the layer of each.
#[derive(Clone, Debug)]
pub struct Program {
    pub blocks: Vec<Block>,
    pub layers: Vec<u8>,
}

impl Program {
    /// So many blocks in so many layers, from one to 16 in each. The blocks of a layer share no qubit, and
    /// each of them is on a qubit of the layer below.
    pub fn in_layers(random: &mut Random, blocks: usize, layers: usize) -> Program {
        let mut program = Program {
            blocks: Vec::new(),
            layers: Vec::new(),
        };
        let mut below = all_qubits(random);
        for (layer, size) in (0..).zip(sizes(random, blocks, layers)) {
            let blocks = next_layer(random, &below, size);
            below = blocks.concat();
            program.blocks.extend(blocks);
            program.layers.extend(vec![layer; size]);
        }
        program.mix(random);
        program
    }

    /// All bytes.
    pub fn bytes(&self) -> Vec<u8> {
        self.blocks.concat()
    }

    /// Exchanges neighbours that share no qubit, and their layers with them.
    fn mix(&mut self, random: &mut Random) {
        for _ in 0..EXCHANGES_PER_BLOCK * self.blocks.len() {
            let place = random.below(self.blocks.len());
            if let [one, [first, second], ..] = &self.blocks[place..] {
                if !one.contains(first) && !one.contains(second) {
                    self.blocks.swap(place, place + 1);
                    self.layers.swap(place, place + 1);
                }
            }
        }
    }
}

/// So many blocks, whatever their layers, on up to so many qubits, which are at least two.
pub fn blocks_on(random: &mut Random, qubits: usize, number: usize) -> Vec<Block> {
    let some = &all_qubits(random)[..qubits];
    let mut block = || {
        let (first, second) = random.two_below(qubits);
        [some[first], some[second]]
    };
    (0..number).map(|_| block()).collect()
}

/// All qubits in a random order.
fn all_qubits(random: &mut Random) -> Vec<u8> {
    let mut qubits: Vec<u8> = (0..QUBITS).collect();
    random.shuffle(&mut qubits);
    qubits
}

/// How many blocks there are in each of so many layers; no layer has more than the one below.
fn sizes(random: &mut Random, blocks: usize, layers: usize) -> Vec<usize> {
    let mut sizes = vec![1; layers];
    while sizes.iter().sum::<usize>() < blocks {
        let layer = random.below(layers);
        if sizes[layer] < MAX_BLOCKS_PER_LAYER {
            sizes[layer] += 1;
        }
    }
    sizes.sort_unstable_by(|one, other| other.cmp(one));
    sizes
}

/// So many blocks that share no qubit, each on one of the given qubits and on any other.
fn next_layer(random: &mut Random, below: &[u8], size: usize) -> Vec<Block> {
    let mut firsts = below.to_vec();
    random.shuffle(&mut firsts);
    firsts.truncate(size);
    let mut seconds = all_qubits(random);
    seconds.retain(|qubit| !firsts.contains(qubit));
    let pairs = firsts.into_iter().zip(seconds);
    pairs
        .map(|(first, second)| match random.chance(2) {
            true => [first, second],
            false => [second, first],
        })
        .collect()
}

#[cfg(test)]
mod tests {
    use super::*;
    use plain::layer::MAX_BLOCKS;

    #[test]
    fn programs_have_the_wanted_layers() {
        let mut random = Random::new(17);
        for blocks in 0..=MAX_BLOCKS {
            for layers in blocks.div_ceil(MAX_BLOCKS_PER_LAYER)..=blocks {
                let program = Program::in_layers(&mut random, blocks, layers);
                let mut out = vec![0; blocks];
                let number = plain::blocks_to_layers(&program.bytes(), &mut out);
                assert_eq!(number, Ok(layers as u8));
                assert_eq!(out, program.layers);
            }
        }
    }

    #[test]
    fn layers_do_not_lie_in_order() {
        let mut random = Random::new(18);
        let program = Program::in_layers(&mut random, MAX_BLOCKS, MAX_BLOCKS / 2);
        assert!(!program.layers.is_sorted());
    }

    #[test]
    fn programs_are_on_the_wanted_qubits() {
        let mut random = Random::new(19);
        for qubits in 2..=usize::from(QUBITS) {
            let mut met = blocks_on(&mut random, qubits, 1000).concat();
            met.sort_unstable();
            met.dedup();
            assert_eq!(met.len(), qubits);
        }
    }
}
