//! Every Clifford into gates: no C, and as many Z as indices cross.

use plain::gate::LETTERS_PER_COUNT;
use plain::stretch::{crossings, cz_gates};
use samples::CLIFFORDS_BY_CROSSINGS;

use crate::call::Call;
use crate::judge::Judge;
use crate::trials::same;

/// Runs the call that cuts into gates on every Clifford.
pub fn run(judge: &mut Judge) {
    let mut by_cz_gates = [0; CLIFFORDS_BY_CROSSINGS.len()];
    for clifford in samples::cliffords() {
        let file = samples::file(&clifford);
        let (_, list) = judge.run_with(Call::OperatorToGates, &file, LETTERS_PER_COUNT);
        let cz_gates = cz_gates(&list);
        let crossings = crossings(&clifford);
        same(Call::OperatorToGates, &file, &cz_gates, &crossings);
        by_cz_gates[cz_gates] += 1;
    }
    let all = CLIFFORDS_BY_CROSSINGS;
    same(Call::OperatorToGates, &[], &by_cz_gates, &all);
}
