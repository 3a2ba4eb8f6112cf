//! OpenQASM 2.0 text of gate lists, by document 02, P8: three first lines, then a statement for each
//! letter, in time order, so that the last letter comes first.

use crate::gate::MAX_LETTERS;
use crate::refusal;

/// The lines before the statements.
const FIRST_LINES: &str = r#"OPENQASM 2.0;
include "qelib1.inc";
qreg q[2];
"#;

/// The first and the second qubit.
const QUBITS: [&str; 2] = ["q[0]", "q[1]"];

/// The bytes of the longest statement, that of C, with its line feed.
pub const MAX_STATEMENT: usize = 21;

/// The longest text that is written.
pub const MAX_TEXT: usize = FIRST_LINES.len() + MAX_STATEMENT * MAX_LETTERS;

/// What a letter stands for: a gate by its name, and whether it is on each of the qubits.
struct Gate {
    letter: u8,
    name: &'static str,
    on: [bool; QUBITS.len()],
}

const GATES: [Gate; 6] = [
    Gate::new(b'H', "h", [true, false]),
    Gate::new(b'h', "h", [false, true]),
    Gate::new(b'S', "s", [true, false]),
    Gate::new(b's', "s", [false, true]),
    Gate::new(b'Z', "cz", [true, true]),
    Gate::new(b'C', "cu1(pi/2)", [true, true]),
];

impl Gate {
    const fn new(letter: u8, name: &'static str, on: [bool; QUBITS.len()]) -> Gate {
        Gate { letter, name, on }
    }

    /// The gate of a letter, if the byte is one.
    fn of_letter(letter: u8) -> Option<&'static Gate> {
        GATES.iter().find(|gate| gate.letter == letter)
    }

    /// The gate of a line, if the line is a statement; its line feed belongs to it.
    fn of_line(line: &str) -> Option<&'static Gate> {
        let (name, operands) = line.strip_suffix(";\n")?.split_once(' ')?;
        let on = qubits(operands)?;
        GATES.iter().find(|gate| gate.name == name && gate.on == on)
    }

    /// Appends the statement, the first qubit first.
    fn write(&self, text: &mut String) {
        text.push_str(self.name);
        let mut mark = ' ';
        for (qubit, on) in QUBITS.iter().zip(self.on) {
            if on {
                text.push(mark);
                text.push_str(qubit);
                mark = ',';
            }
        }
        text.push_str(";\n");
    }
}

/// The text of a gate list.
pub fn of_list(list: &[u8]) -> Result<String, u8> {
    if list.len() > MAX_LETTERS {
        return Err(refusal::TOO_MANY_LETTERS);
    }
    let mut text = FIRST_LINES.to_owned();
    for &letter in list.iter().rev() {
        let gate = Gate::of_letter(letter).ok_or(refusal::UNKNOWN_LETTER)?;
        gate.write(&mut text);
    }
    Ok(text)
}

/// The gate list of a text.
pub fn read(text: &[u8]) -> Result<Vec<u8>, u8> {
    let mut letters = letters(text).ok_or(refusal::NO_STATEMENT)?;
    if letters.len() > MAX_LETTERS {
        return Err(refusal::TOO_MANY_LETTERS);
    }
    letters.reverse();
    Ok(letters)
}

/// The letters of all statements, in time order; none if a line is not what it has to be.
fn letters(text: &[u8]) -> Option<Vec<u8>> {
    let text = str::from_utf8(text).ok()?;
    let lines = text.strip_prefix(FIRST_LINES)?.split_inclusive('\n');
    lines
        .map(|line| Some(Gate::of_line(line)?.letter))
        .collect()
}

/// Whether each of the qubits is among the operands, whatever their order; none if one is there twice or
/// something else is.
fn qubits(operands: &str) -> Option<[bool; QUBITS.len()]> {
    let mut on = [false; QUBITS.len()];
    for operand in operands.split(',') {
        let qubit = QUBITS.iter().position(|&qubit| qubit == operand)?;
        if on[qubit] {
            return None;
        }
        on[qubit] = true;
    }
    Some(on)
}
