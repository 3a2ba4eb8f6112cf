//! OpenQASM texts in lines, each of which can be damaged by itself.

use std::borrow::Cow;

use crate::Random;

/// The lines before the statements.
pub const FIRST_LINES: [&str; 3] = ["OPENQASM 2.0;", "include \"qelib1.inc\";", "qreg q[2];"];

/// Every statement with its letter; those that are written come first.
pub const STATEMENTS: [(u8, &str); 8] = [
    (b'H', "h q[0];"),
    (b'h', "h q[1];"),
    (b'S', "s q[0];"),
    (b's', "s q[1];"),
    (b'Z', "cz q[0],q[1];"),
    (b'C', "cu1(pi/2) q[0],q[1];"),
    (b'Z', "cz q[1],q[0];"),
    (b'C', "cu1(pi/2) q[1],q[0];"),
];

/// The lines of a text, without their line feeds.
#[derive(Clone, Debug)]
pub struct Text {
    pub lines: Vec<Line>,
}

/// A line; one that is not damaged is a constant.
pub type Line = Cow<'static, [u8]>;

impl Text {
    /// The text that is written for a gate list.
    pub fn of(list: &[u8]) -> Text {
        Text::choosing(list, || false)
    }

    /// The same, with the qubits of each statement in either order.
    pub fn in_any_order(random: &mut Random, list: &[u8]) -> Text {
        Text::choosing(list, || random.chance(2))
    }

    /// The text of a list, in which each statement may have its qubits in the reverse order.
    fn choosing(list: &[u8], mut reversed: impl FnMut() -> bool) -> Text {
        let statement = |&letter: &u8| {
            let mut fitting = STATEMENTS.iter().filter(|(of, _)| *of == letter);
            let statement = if reversed() {
                fitting.next_back()
            } else {
                fitting.next()
            };
            statement.expect("a letter of the table").1
        };
        Text::with(list.iter().rev().map(statement))
    }

    /// The first three lines, and then the statements.
    pub fn with(statements: impl IntoIterator<Item = &'static str>) -> Text {
        let lines = FIRST_LINES.into_iter().chain(statements);
        Text {
            lines: lines.map(|line| line.as_bytes().into()).collect(),
        }
    }

    /// All bytes.
    pub fn bytes(&self) -> Vec<u8> {
        let mut bytes = Vec::new();
        for line in &self.lines {
            bytes.extend_from_slice(line);
            bytes.push(b'\n');
        }
        bytes
    }
}

#[cfg(test)]
mod tests {
    use super::*;
    use crate::{letters, LETTERS};

    #[test]
    fn a_text_has_its_letters() {
        let mut random = Random::new(10);
        for len in 0..100 {
            let list = letters(&mut random, len);
            let text = Text::of(&list).bytes();
            assert_eq!(
                plain::qasm::of_list(&list).map(String::into_bytes),
                Ok(text)
            );
            let text = Text::in_any_order(&mut random, &list).bytes();
            assert_eq!(plain::qasm::read(&text), Ok(list));
        }
    }

    #[test]
    fn every_statement_comes_up() {
        let mut random = Random::new(11);
        let text = Text::in_any_order(&mut random, &LETTERS.repeat(20));
        for (_, statement) in STATEMENTS {
            assert!(text.lines.contains(&statement.as_bytes().into()));
        }
    }

    #[test]
    fn every_line_ends_in_a_line_feed() {
        let text = Text {
            lines: [&b"a"[..], b"", b"b\nc"].map(Line::from).to_vec(),
        };
        assert_eq!(text.bytes(), b"a\n\nb\nc\n");
    }
}
