//! How often each law of the count was looked at, and how far the counts of products were below the sums.

use plain::file::MAX_EXPONENT;

use super::listed;
use crate::laws::{Law, LAWS};

/// The sum of two counts is at most twice the largest.
const MOST_BELOW: usize = 2 * MAX_EXPONENT as usize;
const LEAST: u64 = 1000;

/// The tally of the laws.
pub struct Laws {
    times: [u64; LAWS.len()],
    halves_below: [u64; MOST_BELOW / 2 + 1],
}

impl Laws {
    pub fn new() -> Laws {
        Laws {
            times: [0; LAWS.len()],
            halves_below: [0; MOST_BELOW / 2 + 1],
        }
    }

    /// Counts a law that held.
    pub fn add(&mut self, law: Law) {
        self.times[law as usize] += 1;
    }

    /// Counts a product by how far its count is below the sum, which is an even number.
    pub fn add_product(&mut self, below: u8) {
        self.halves_below[usize::from(below) / 2] += 1;
    }

    /// Prints a line for each law, and one for the products.
    pub fn print(&self) {
        for (law, times) in LAWS.iter().zip(self.times) {
            println!("{}: {times} times", law.name());
        }
        let below = (0..=MOST_BELOW).step_by(2).zip(self.halves_below);
        println!("products, by how far below the sum:{}", listed(below));
    }

    /// What was seen too seldom.
    pub fn gaps(&self) -> Vec<String> {
        let seldom = LAWS.iter().filter(|&&law| self.times[law as usize] < LEAST);
        let mut gaps: Vec<String> = seldom.map(|law| law.name().to_owned()).collect();
        let below = (0..=MOST_BELOW).step_by(2).zip(self.halves_below);
        let never = below.filter(|&(_, times)| times == 0);
        gaps.extend(never.map(|(below, _)| format!("products {below} below the sum")));
        gaps
    }
}
