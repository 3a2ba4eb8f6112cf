//! Texts of gate lists: with the qubits in either order, around the fewest and the most statements, and
//! ones damaged in every way that document 02 turns away; lists, written and read back.

mod damages;

use plain::gate::MAX_LETTERS;
use plain::refusal::{NO_STATEMENT, TOO_MANY_LETTERS};
use samples::{Random, Text, FIRST_LINES};

use crate::call::{Answer, Call};
use crate::judge::Judge;
use crate::trials::expect;

use damages::{put_line, BYTE_DAMAGES, LINE_DAMAGES, WRONG_LINES};

const TEXTS: usize = 30_000;
const LONG_TEXTS: usize = 150;
const OVERLONG_TEXTS: usize = 100;
const BUFFERS_PER_OVERLONG_TEXT: usize = 10;
const LISTS_PER_NUMBER: usize = 4;
const TEXTS_PER_WRONG_LINE: usize = 30;
const OVERLONG_TEXTS_PER_WRONG_LINE: usize = 3;

/// Lists of every number of letters up to this one are written and read back.
const FEW: usize = 40;

/// Numbers of statements around the most that a text may have.
const EDGES: [usize; 6] = [
    MAX_LETTERS - 2,
    MAX_LETTERS - 1,
    MAX_LETTERS,
    MAX_LETTERS + 1,
    MAX_LETTERS + 2,
    MAX_LETTERS + 3,
];

/// Numbers whose low 16 bits look allowed.
const FAR: [usize; 2] = [65_536, 65_537];

/// Runs the call that reads texts, and the one that writes them.
pub fn run(judge: &mut Judge) {
    let mut random = Random::new(9);
    for number in (0..=FEW).chain(EDGES) {
        for _ in 0..LISTS_PER_NUMBER {
            let list = samples::letters(&mut random, number);
            there_and_back(judge, &mut random, &list);
        }
        there_and_back(judge, &mut random, &vec![b'C'; number]);
    }
    for number in FAR {
        there_and_back(judge, &mut random, &vec![b'H'; number]);
    }
    for _ in 0..TEXTS {
        let number = few(&mut random);
        read(judge, &mut random, number);
    }
    for _ in 0..LONG_TEXTS {
        let number = *random.pick(&EDGES);
        read(judge, &mut random, number);
    }
    for _ in 0..OVERLONG_TEXTS {
        let number = too_many(&mut random);
        let text = text(&mut random, number).bytes();
        for _ in 0..BUFFERS_PER_OVERLONG_TEXT {
            judge.run(Call::QasmToGates, &text);
        }
    }
    for line in WRONG_LINES.into_iter().chain(FIRST_LINES) {
        for _ in 0..TEXTS_PER_WRONG_LINE {
            let number = few(&mut random);
            refuse(judge, &mut random, number, line);
        }
        for _ in 0..OVERLONG_TEXTS_PER_WRONG_LINE {
            let number = too_many(&mut random);
            refuse(judge, &mut random, number, line);
        }
    }
}

/// Writes a list, and reads it from its text and from one with the qubits in any order; or has all of
/// them refused for their number.
fn there_and_back(judge: &mut Judge, random: &mut Random, list: &[u8]) {
    let written = &Text::of(list).bytes()[..];
    let in_any_order = &Text::in_any_order(random, list).bytes()[..];
    for (call, input, output) in [
        (Call::GatesToQasm, list, written),
        (Call::QasmToGates, written, list),
        (Call::QasmToGates, in_any_order, list),
    ] {
        let (answer, output) = if list.len() > MAX_LETTERS {
            (Answer::Refused(TOO_MANY_LETTERS), &[][..])
        } else {
            (Answer::Written(output.len()), output)
        };
        expect(judge, call, input, answer, output);
        judge.run(call, input);
    }
}

/// Reads a text, and then what damages leave of it.
fn read(judge: &mut Judge, random: &mut Random, number: usize) {
    let mut text = text(random, number);
    judge.run(Call::QasmToGates, &text.bytes());
    let [of_lines, of_bytes] = mixture(random);
    for _ in 0..of_lines {
        random.pick(&LINE_DAMAGES)(random, &mut text);
    }
    let mut bytes = text.bytes();
    for _ in 0..of_bytes {
        random.pick(&BYTE_DAMAGES)(random, &mut bytes);
    }
    judge.run(Call::QasmToGates, &bytes);
}

/// How many damages a text has: of its lines, of its bytes.
fn mixture(random: &mut Random) -> [usize; 2] {
    match random.below(8) {
        0..=3 => [1, 0],
        4 => [2, 0],
        5 | 6 => [0, 1],
        _ => [1, 1],
    }
}

/// Ends the program unless a text is refused that has a line too many, which is no statement.
fn refuse(judge: &mut Judge, random: &mut Random, number: usize, line: &'static str) {
    let mut text = text(random, number);
    put_line(random, &mut text, line.as_bytes());
    let answer = Answer::Refused(NO_STATEMENT);
    expect(judge, Call::QasmToGates, &text.bytes(), answer, &[]);
}

/// A text of so many statements, with the qubits in any order.
fn text(random: &mut Random, number: usize) -> Text {
    let list = samples::letters(random, number);
    Text::in_any_order(random, &list)
}

fn few(random: &mut Random) -> usize {
    let limit = *random.pick(&[1, 4, 8, 60]);
    random.below(limit)
}

fn too_many(random: &mut Random) -> usize {
    MAX_LETTERS + random.pick(&[1, 1, 2, 3, 1000])
}
