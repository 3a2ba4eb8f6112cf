//! How often each statement of a text, and each number of few or of most statements, was seen.

use std::ops::RangeInclusive;

use plain::gate::MAX_LETTERS;
use samples::{FIRST_LINES, STATEMENTS};

use super::{least, listed};
use crate::call::Call;

/// The numbers of statements that have to be seen.
const EDGES: [RangeInclusive<usize>; 2] = [0..=40, MAX_LETTERS - 2..=MAX_LETTERS];

/// The tally of the texts of a call.
pub struct Texts {
    statements: [u64; STATEMENTS.len()],
    numbers: Vec<u64>,
}

impl Texts {
    pub fn new() -> Texts {
        Texts {
            statements: [0; STATEMENTS.len()],
            numbers: vec![0; MAX_LETTERS + 1],
        }
    }

    /// Counts the statements of a text.
    pub fn add(&mut self, text: &[u8]) {
        let lines = text.split_inclusive(|&byte| byte == b'\n');
        let mut number = 0;
        for line in lines.skip(FIRST_LINES.len()) {
            let line = line.strip_suffix(b"\n");
            let mut statements = STATEMENTS.iter();
            let place = statements.position(|(_, statement)| line == Some(statement.as_bytes()));
            self.statements[place.expect("a statement")] += 1;
            number += 1;
        }
        self.numbers[number] += 1;
    }

    /// Prints a line for the first `known` statements, and two for their number.
    pub fn print(&self, call: Call, known: usize) {
        let name = call.name();
        println!("statements of {name}:{}", listed(self.statements(known)));
        for edge in EDGES {
            let (first, last) = edge.clone().into_inner();
            let least = least(&self.numbers[edge]);
            println!(
                "statements in a text of {name}: {first} to {last}, each at least {least} times"
            );
        }
    }

    /// What was never seen.
    pub fn gaps(&self, call: Call, known: usize) -> Vec<String> {
        let mut gaps = Vec::new();
        for (statement, times) in self.statements(known) {
            if times == 0 {
                gaps.push(format!("statement {statement} of {}", call.name()));
            }
        }
        for number in EDGES.into_iter().flatten() {
            if self.numbers[number] == 0 {
                gaps.push(format!("texts of {number} statements of {}", call.name()));
            }
        }
        gaps
    }

    /// The first `known` statements, and how often each was seen.
    fn statements(&self, known: usize) -> impl Iterator<Item = (&'static str, u64)> + '_ {
        let statements = STATEMENTS.iter().map(|(_, statement)| *statement);
        statements.zip(self.statements).take(known)
    }
}
