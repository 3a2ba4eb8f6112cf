//! How often each number of blocks of a program, and each number of layers, was seen.

use plain::layer::{BLOCK_BYTES, MAX_BLOCKS};

use super::{least, missing};
use crate::call::Call;

/// The tally of the programs.
pub struct Programs {
    blocks: [u64; MAX_BLOCKS + 1],
    layers: [u64; MAX_BLOCKS + 1],
}

impl Programs {
    pub fn new() -> Programs {
        Programs {
            blocks: [0; MAX_BLOCKS + 1],
            layers: [0; MAX_BLOCKS + 1],
        }
    }

    /// Counts a program with its number of layers.
    pub fn add(&mut self, program: &[u8], layers: usize) {
        self.blocks[program.len() / BLOCK_BYTES] += 1;
        self.layers[layers] += 1;
    }

    /// Prints a line for the numbers of blocks, and one for those of layers.
    pub fn print(&self, call: Call) {
        for (what, times) in self.numbers() {
            let (name, least) = (call.name(), least(times));
            println!("{what} of {name}: 0 to {MAX_BLOCKS}, each at least {least} times");
        }
    }

    /// What was never seen.
    pub fn gaps(&self, call: Call) -> Vec<String> {
        let gaps =
            |(what, times): (&str, &[u64])| missing(&format!("number of {what}"), call, times);
        self.numbers().into_iter().flat_map(gaps).collect()
    }

    /// What is numbered, and how often each number was seen.
    fn numbers(&self) -> [(&'static str, &[u64]); 2] {
        [("blocks", &self.blocks), ("layers", &self.layers)]
    }
}
