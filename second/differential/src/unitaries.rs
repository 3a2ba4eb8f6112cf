//! Unitaries for the call that cuts them: known ones, one for every Clifford, accepted ones of every count
//! and exponent, times every power of ω, and ones damaged in every way that document 02, P5, turns away.

mod cases;
mod damages;

use plain::gate::LETTERS_PER_COUNT;
use plain::unitary::{Unitary, MAX_EXPONENT};
use samples::{Random, MAX_UNITARY_COUNT};

use crate::call::Call;
use crate::damages::mixture;
use crate::judge::Judge;

use damages::{BYTE_CHANGES, LENGTH_CHANGES, UNITARY_CHANGES};

const INPUTS: usize = 20_000;

/// How many L unitaries are drawn of, from 0 up. With larger ones, few forms have a unitary whose exponent is
/// small enough.
pub const UNITARY_LOOSE: usize = 33;

/// How many unitaries of each L are drawn once, to be used again, and how far their counts are above it.
const STORED_PER_LOOSE: usize = 3;
const COUNTS_ABOVE_LOOSE: usize = 12;

/// Runs the call that reads unitaries.
pub fn run(judge: &mut Judge) {
    cases::run(judge);
    let mut random = Random::new(11);
    for clifford in samples::cliffords() {
        let unitary = samples::unitary_of_form(&mut random, &clifford);
        let unitary = unitary.expect("a Clifford has a small exponent");
        let bytes = samples::unitary_bytes(&unitary);
        judge.run_with(Call::UnitaryToGates, &bytes, LETTERS_PER_COUNT);
    }
    let store = by_loose(&mut random);
    for unitary in &store {
        judge.run(Call::UnitaryToGates, &samples::unitary_bytes(unitary));
    }
    for _ in 0..INPUTS / 2 {
        let accepted = samples::unitary_bytes(&accepted(&mut random, &store));
        judge.run(Call::UnitaryToGates, &accepted);
        judge.run(Call::UnitaryToGates, &damaged(&mut random, &store));
    }
}

/// Unitaries of every L that they are drawn of.
fn by_loose(random: &mut Random) -> Vec<Unitary> {
    let each = (0..UNITARY_LOOSE).flat_map(|loose| [loose as u8; STORED_PER_LOOSE]);
    each.map(|loose| of_loose(random, loose)).collect()
}

/// A unitary of a form with this L.
fn of_loose(random: &mut Random, loose: u8) -> Unitary {
    loop {
        let count = loose + 1 + random.below(COUNTS_ABOVE_LOOSE) as u8;
        let form = samples::operator_of_loose(random, count, loose);
        if let Some(unitary) = samples::unitary_of_form(random, &form) {
            return unitary;
        }
    }
}

/// An accepted unitary, at its least or a larger exponent.
fn accepted(random: &mut Random, store: &[Unitary]) -> Unitary {
    let count = random.below(usize::from(MAX_UNITARY_COUNT) + 1) as u8;
    let unitary = match random.below(8) {
        0 => samples::unitary(random, count, count.div_ceil(2)),
        1 => *random.pick(store),
        _ => samples::unitary(random, count, MAX_EXPONENT),
    };
    if random.chance(2) {
        return unitary;
    }
    samples::inflated_unitary(random, &unitary)
}

/// The bytes of a unitary with one change or more.
fn damaged(random: &mut Random, store: &[Unitary]) -> Vec<u8> {
    let [of_unitary, of_bytes, of_length] = mixture(random);
    let mut unitary = accepted(random, store);
    for _ in 0..of_unitary {
        random.pick(&UNITARY_CHANGES)(random, &mut unitary);
    }
    let mut bytes = samples::unitary_bytes(&unitary);
    for _ in 0..of_bytes {
        random.pick(&BYTE_CHANGES)(random, &mut bytes);
    }
    for _ in 0..of_length {
        random.pick(&LENGTH_CHANGES)(random, &mut bytes);
    }
    bytes
}
