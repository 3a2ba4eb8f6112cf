//! Runs every call on both implementations with fixed seeds and compares answers and bytes. The
//! first difference is printed and ends the run with exit code 1; so does a tally with gaps.

#![forbid(unsafe_code)]

mod bundles;
mod call;
mod cliffords;
mod damages;
mod gates;
mod judge;
mod kinds;
mod laws;
mod layers;
mod lent;
mod lists;
mod negatives;
mod operators;
mod orders;
mod programs;
mod sheets;
mod short;
mod tally;
mod texts;
mod trials;
mod unitaries;

use std::process::ExitCode;

use judge::Judge;

fn main() -> ExitCode {
    let mut judge = Judge::new();
    trials::run(&mut judge);
    cliffords::run(&mut judge);
    negatives::run(&mut judge);
    kinds::run(&mut judge);
    laws::run(&mut judge);
    short::run(&mut judge);
    operators::run(&mut judge);
    unitaries::run(&mut judge);
    lists::run(&mut judge);
    sheets::run(&mut judge);
    orders::run(&mut judge);
    bundles::run(&mut judge);
    texts::run(&mut judge);
    programs::run(&mut judge);
    judge.tally.print();
    let gaps = judge.tally.gaps();
    for gap in &gaps {
        println!("too few: {gap}");
    }
    if gaps.is_empty() {
        println!("both implementations agree");
        return ExitCode::SUCCESS;
    }
    ExitCode::FAILURE
}
