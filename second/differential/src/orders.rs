//! Orders of states: every t and p up to just above their limits, and numbers of all sizes.

use plain::file::MAX_EXPONENT;
use plain::MAX_SPOILAGE;
use samples::Random;

use crate::call::{order, Call};
use crate::judge::Judge;

const MAX_T: u64 = MAX_EXPONENT as u64;
const MAX_P: u64 = MAX_SPOILAGE;
const RANDOM_ORDERS: usize = 20_000;

/// Numbers whose low parts look allowed.
const FAR: [u64; 8] = [
    1 << 8,
    1 << 16,
    1 << 31,
    1 << 32,
    (1 << 32) + MAX_T,
    1 << 63,
    u64::MAX - MAX_T,
    u64::MAX,
];

/// Runs the call that orders states.
pub fn run(judge: &mut Judge) {
    for t in 0..=MAX_T + 2 {
        for p in 0..=MAX_P + 2 {
            judge.run(Call::StatesToOrder, &order(t, p));
        }
    }
    let mut random = Random::new(5);
    for _ in 0..RANDOM_ORDERS {
        let t = number(&mut random, MAX_T);
        let p = number(&mut random, MAX_P);
        judge.run(Call::StatesToOrder, &order(t, p));
    }
}

/// A number up to the limit, around it, far from it, or of any size.
fn number(random: &mut Random, limit: u64) -> u64 {
    match random.below(5) {
        0 => random.number() % (limit + 1),
        1 => limit - 1 + random.number() % 4,
        2 => *random.pick(&FAR),
        3 => random.number() >> random.below(64),
        _ => random.number(),
    }
}
