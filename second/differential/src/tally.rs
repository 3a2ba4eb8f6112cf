//! How often each call ran, each refusal of each call came, and each count, or figure of states, each kind and
//! exponent of operator file, each L, each sign or power of ω of a gate list, each number of Z in a stretch of one, each last byte of a
//! sheet, each number of sheets in a bundle, each length and position of a part of one, each statement of a
//! text, each number of few or of most statements, and each number of blocks and of layers of a program was seen, how
//! often each law of the count was looked at, and how many short sheets were read and products with Cliffords cut.

mod files;
mod gates;
mod laws;
mod programs;
mod short;
mod texts;

use std::fmt::Display;

use dimfrets::Refusal;
use plain::bundle::{MAX_PART, MAX_SHEETS, NUMBER_BYTES};
use plain::file::MAX_EXPONENT;
use plain::sheet::MIN_SHEET;
use samples::{LETTERS, MAX_UNITARY_COUNT, STATEMENTS};

use crate::call::{Answer, Call, CALLS};
use crate::laws::Law;
use crate::unitaries::UNITARY_LOOSE;

use files::{Files, Use};
use gates::{Beside, Gates, POWER, SIGN};
use laws::Laws;
use programs::Programs;
use short::Short;
use texts::Texts;

const REFUSALS: usize = 256;
const COUNTS: usize = MAX_EXPONENT as usize + 1;
const UNITARY_COUNTS: usize = MAX_UNITARY_COUNT as usize + 1;
const FIGURES: usize = 2 * MAX_EXPONENT as usize + 1;
const LOOSE: usize = MAX_EXPONENT as usize;
const LAST_BYTES: usize = 2;
const NUMBERS_OF_SHEETS: usize = MAX_SHEETS + 1;
const PART_LENGTHS: usize = MAX_PART + 1;
const LEAST_INPUTS: u64 = 200_000;
const LEAST_PER_REFUSAL: u64 = 1000;

/// The calls that answer a count, or a figure of states.
const COUNTING_CALLS: [Call; 6] = [
    Call::OperatorToSheet,
    Call::OperatorToGates,
    Call::UnitaryToGates,
    Call::GatesToOperator,
    Call::SheetToOperator,
    Call::StatesToOrder,
];

/// The calls that cut, and how many L each has to meet, from 0 up; L is below the count, and a unitary that
/// has a small exponent for its count has few that are large.
const CUTTING_CALLS: [(Call, usize); 3] = [
    (Call::OperatorToSheet, LOOSE),
    (Call::OperatorToGates, LOOSE),
    (Call::UnitaryToGates, UNITARY_LOOSE),
];

/// The calls that read or write operator files.
const FILE_CALLS: [(Call, Use); 4] = [
    (Call::OperatorToSheet, Use::Reads),
    (Call::OperatorToGates, Use::Reads),
    (Call::GatesToOperator, Use::Writes),
    (Call::SheetToOperator, Use::Writes),
];

/// The calls that write gate lists, and what stands beside a list.
const GATES_CALLS: [(Call, Beside); 2] =
    [(Call::OperatorToGates, SIGN), (Call::UnitaryToGates, POWER)];

/// The calls that write or read sheets.
const SHEET_CALLS: [Call; 2] = [Call::OperatorToSheet, Call::SheetToOperator];

/// The calls that write or read bundles.
const BUNDLE_CALLS: [Call; 2] = [Call::BundleSheet, Call::SheetsToBundle];

/// The calls that write or read texts, and how many of the statements each knows.
const TEXT_CALLS: [(Call, usize); 2] = [
    (Call::GatesToQasm, LETTERS.len()),
    (Call::QasmToGates, STATEMENTS.len()),
];

/// Where a part stands among the sheets of its bundle.
const POSITIONS: [&str; 4] = ["between others", "first", "last", "alone"];

/// The tally of all calls.
pub struct Tally {
    inputs: [u64; CALLS.len()],
    refusals: [[u64; REFUSALS]; CALLS.len()],
    counts: [Vec<u64>; CALLS.len()],
    files: [Files; CALLS.len()],
    loose: [[u64; LOOSE]; CALLS.len()],
    gates: [Gates; CALLS.len()],
    last_bytes: [[u64; LAST_BYTES]; CALLS.len()],
    sheets: [[u64; NUMBERS_OF_SHEETS]; CALLS.len()],
    part_lengths: [u64; PART_LENGTHS],
    positions: [u64; POSITIONS.len()],
    texts: [Texts; CALLS.len()],
    programs: Programs,
    laws: Laws,
    short: Short,
}

impl Tally {
    pub fn new() -> Tally {
        Tally {
            inputs: [0; CALLS.len()],
            refusals: [[0; REFUSALS]; CALLS.len()],
            counts: CALLS.map(|call| vec![0; counts(call)]),
            files: CALLS.map(|_| Files::new()),
            loose: [[0; LOOSE]; CALLS.len()],
            gates: CALLS.map(|_| Gates::new()),
            last_bytes: [[0; LAST_BYTES]; CALLS.len()],
            sheets: [[0; NUMBERS_OF_SHEETS]; CALLS.len()],
            part_lengths: [0; PART_LENGTHS],
            positions: [0; POSITIONS.len()],
            texts: CALLS.map(|_| Texts::new()),
            programs: Programs::new(),
            laws: Laws::new(),
            short: Short::new(),
        }
    }

    /// Counts one answer, and the last byte of the sheet that was written or read, if one was.
    pub fn add(&mut self, call: Call, answer: Answer, last_byte: Option<u8>) {
        self.inputs[call as usize] += 1;
        match answer {
            Answer::Refused(number) => self.refusals[call as usize][usize::from(number)] += 1,
            Answer::Count { count, loose, .. } | Answer::Unitary { count, loose, .. } => {
                self.counts[call as usize][count as usize] += 1;
                self.loose[call as usize][usize::from(loose)] += 1;
            }
            Answer::Written(_) | Answer::Layers(_) | Answer::Part { .. } | Answer::Unknown => {}
        }
        if let Some(last_byte) = last_byte {
            self.last_bytes[call as usize][usize::from(last_byte)] += 1;
        }
    }

    /// Counts an operator file that was written or read, with the count of its operator.
    pub fn add_file(&mut self, call: Call, file: &[u8], count: u64) {
        self.files[call as usize].add(file, count);
    }

    /// Counts the room that a call was lent, where that matters.
    pub fn add_buffer(&mut self, call: Call, answer: Answer, room: usize) {
        self.files[call as usize].add_buffer(answer, room);
    }

    /// Counts a gate list that was written, with its sign or power of ω.
    pub fn add_gates(&mut self, call: Call, list: &[u8], beside: u8) {
        self.gates[call as usize].add(list, beside);
    }

    /// Counts a bundle that was written or read, and the part of it that was handed back, if one was.
    pub fn add_bundle(&mut self, call: Call, answer: Answer, bundle: &[u8]) {
        let number = bundle.last_chunk().expect("a bundle says its number");
        let number = usize::from(u16::from_le_bytes(*number));
        self.sheets[call as usize][number] += 1;
        if let Answer::Part { place, length } = answer {
            let trailer = bundle.len() - NUMBER_BYTES * (number + 1);
            let (is_first, is_last) = (place == 0, place + length == trailer);
            self.part_lengths[length] += 1;
            self.positions[usize::from(is_first) + 2 * usize::from(is_last)] += 1;
        }
    }

    /// Counts a text that was written or read.
    pub fn add_text(&mut self, call: Call, text: &[u8]) {
        self.texts[call as usize].add(text);
    }

    /// Counts a program whose layers were written, with their number.
    pub fn add_program(&mut self, program: &[u8], layers: usize) {
        self.programs.add(program, layers);
    }

    /// Counts a law that was looked at.
    pub fn add_law(&mut self, law: Law) {
        self.laws.add(law);
    }

    /// Counts a product of operators by how far its count is below the sum of theirs.
    pub fn add_product(&mut self, below: u8) {
        self.laws.add_product(below);
    }

    /// Counts a short sheet that was read, by its count.
    pub fn add_listed(&mut self, count: u64) {
        self.short.add(count);
    }

    /// Counts the different sheets of listed products times Cliffords.
    pub fn add_short_products(&mut self, different: usize) {
        self.short.add_products(different);
    }

    /// Counts other products of two generators times Cliffords.
    pub fn add_other_products(&mut self, number: usize) {
        self.short.add_other_products(number);
    }

    /// Prints a line for each call, one for all refusals and one for those of each call, one for the
    /// counts of each call that answers them, two or three for the files of each call that reads or writes
    /// them, one for the L of each call that cuts, two for each call that
    /// writes gate lists, one for the last bytes of each call with sheets, one for the numbers of sheets of
    /// each call with bundles, two for the parts, three for each call with texts, two for the programs, one
    /// for each law, one for the products, and three for the short sheets.
    pub fn print(&self) {
        for (call, inputs) in CALLS.iter().zip(self.inputs) {
            println!("{}: {inputs} inputs", call.name());
        }
        println!("inputs in all: {}", self.inputs.iter().sum::<u64>());
        println!("refusals:{}", listed(self.refusals()));
        for call in CALLS {
            let times = listed(self.refusals_of(call));
            println!("refusals of {}:{times}", call.name());
        }
        for call in COUNTING_CALLS {
            let times = numbered(&self.counts[call as usize]);
            println!("counts of {}:{times}", call.name());
        }
        for (call, used) in FILE_CALLS {
            self.files[call as usize].print(call, used);
        }
        for (call, known) in CUTTING_CALLS {
            let times = numbered(&self.loose[call as usize][..known]);
            println!("L of {}:{times}", call.name());
        }
        for (call, beside) in GATES_CALLS {
            self.gates[call as usize].print(call, &beside);
        }
        for call in SHEET_CALLS {
            let times = numbered(&self.last_bytes[call as usize]);
            println!("last bytes of {}:{times}", call.name());
        }
        for call in BUNDLE_CALLS {
            let least = least(&self.sheets[call as usize]);
            println!(
                "sheets in a bundle of {}: 0 to {MAX_SHEETS}, each at least {least} times",
                call.name()
            );
        }
        let least = least(&self.part_lengths[MIN_SHEET..]);
        println!("lengths of parts: {MIN_SHEET} to {MAX_PART}, each at least {least} times");
        let times = POSITIONS.into_iter().zip(self.positions);
        println!("positions of parts:{}", listed(times));
        for (call, known) in TEXT_CALLS {
            self.texts[call as usize].print(call, known);
        }
        self.programs.print(Call::BlocksToLayers);
        self.laws.print();
        self.short.print();
    }

    /// What was seen too seldom.
    pub fn gaps(&self) -> Vec<String> {
        let mut gaps = Vec::new();
        if self.inputs.iter().sum::<u64>() < LEAST_INPUTS {
            gaps.push("inputs in all".to_owned());
        }
        for (number, times) in self.refusals() {
            if times < LEAST_PER_REFUSAL {
                gaps.push(format!("refusal {number}"));
            }
        }
        for call in CALLS {
            for (number, times) in self.refusals_of(call) {
                if times < LEAST_PER_REFUSAL {
                    gaps.push(format!("refusal {number} of {}", call.name()));
                }
            }
        }
        for call in COUNTING_CALLS {
            gaps.extend(missing("count", call, &self.counts[call as usize]));
        }
        for (call, used) in FILE_CALLS {
            gaps.extend(self.files[call as usize].gaps(call, used));
        }
        for (call, known) in CUTTING_CALLS {
            gaps.extend(missing("L", call, &self.loose[call as usize][..known]));
        }
        for (call, beside) in GATES_CALLS {
            gaps.extend(self.gates[call as usize].gaps(call, &beside));
        }
        for call in SHEET_CALLS {
            gaps.extend(missing("last byte", call, &self.last_bytes[call as usize]));
        }
        for call in BUNDLE_CALLS {
            let times = &self.sheets[call as usize];
            gaps.extend(missing("number of sheets", call, times));
        }
        for length in MIN_SHEET..=MAX_PART {
            if self.part_lengths[length] == 0 {
                gaps.push(format!("parts of length {length}"));
            }
        }
        for (position, times) in POSITIONS.iter().zip(self.positions) {
            if times == 0 {
                gaps.push(format!("parts {position}"));
            }
        }
        for (call, known) in TEXT_CALLS {
            gaps.extend(self.texts[call as usize].gaps(call, known));
        }
        gaps.extend(self.programs.gaps(Call::BlocksToLayers));
        gaps.extend(self.laws.gaps());
        gaps.extend(self.short.gaps());
        gaps
    }

    /// The number of each refusal, and how often it came.
    fn refusals(&self) -> impl Iterator<Item = (u8, u64)> + '_ {
        let numbers = Refusal::ALL.into_iter().map(Refusal::number);
        let times = |number| self.refusals.iter().map(|times| times[number]).sum();
        numbers.map(move |number| (number, times(usize::from(number))))
    }

    /// The number of each refusal that a call can answer, and how often it came.
    fn refusals_of(&self, call: Call) -> impl Iterator<Item = (u8, u64)> + '_ {
        let times = &self.refusals[call as usize];
        let numbers = call.refusals().iter();
        numbers.map(|&number| (number, times[usize::from(number)]))
    }
}

/// The numbers from 0 up that a call never met.
fn missing(what: &str, call: Call, times: &[u64]) -> Vec<String> {
    let numbers = (0..times.len()).filter(|&number| times[number] == 0);
    let gap = |number| format!("{what} {number} of {}", call.name());
    numbers.map(gap).collect()
}

/// How many counts, or figures, a call can answer.
fn counts(call: Call) -> usize {
    match call {
        Call::UnitaryToGates => UNITARY_COUNTS,
        Call::StatesToOrder => FIGURES,
        _ => COUNTS,
    }
}

fn least(times: &[u64]) -> u64 {
    times.iter().copied().min().unwrap_or(0)
}

fn numbered(times: &[u64]) -> String {
    listed((0..).zip(times.iter().copied()))
}

fn listed<T: Display>(times: impl Iterator<Item = (T, u64)>) -> String {
    times
        .map(|(what, times)| format!(" {what}: {times}"))
        .collect::<Vec<_>>()
        .join(",")
}
