//! The eleven calls and their answers, as numbers that both implementations share.

use std::panic::{catch_unwind, AssertUnwindSafe};

use dimfrets::Refusal;

// Buffers of the wrapper's sizes hold either kind of operator file, the longest sheet, the longest bundle, the
// longest text and the most layers, and have no byte more.
const _: () = assert!(dimfrets::SHORT_OPERATOR_BYTES == plain::file::SHORT_BYTES);
const _: () = assert!(dimfrets::LONG_OPERATOR_BYTES == plain::file::LONG_BYTES);
const _: () = assert!(dimfrets::MAX_SHORT_EXPONENT == plain::file::MAX_SHORT_EXPONENT);
const _: () = assert!(dimfrets::MAX_COUNT == plain::file::MAX_EXPONENT);
const _: () = assert!(dimfrets::MAX_SHEET == plain::sheet::MAX_SHEET);
const _: () = assert!(dimfrets::MAX_LETTERS == plain::gate::MAX_LETTERS);
const _: () = assert!(dimfrets::BUNDLE_BUFFER == plain::bundle::MAX_BUNDLE);
const _: () = assert!(dimfrets::QASM_BUFFER == plain::qasm::MAX_TEXT);
const _: () = assert!(dimfrets::MAX_BLOCKS == plain::layer::MAX_BLOCKS);
const _: () = assert!(dimfrets::QUBITS == plain::layer::QUBITS);

/// A call of the interface.
#[derive(Clone, Copy, Debug, PartialEq, Eq)]
pub enum Call {
    OperatorToSheet,
    OperatorToGates,
    UnitaryToGates,
    GatesToOperator,
    SheetToOperator,
    StatesToOrder,
    BundleSheet,
    SheetsToBundle,
    GatesToQasm,
    QasmToGates,
    BlocksToLayers,
}

/// All calls, in the order of their discriminants.
pub const CALLS: [Call; 11] = [
    Call::OperatorToSheet,
    Call::OperatorToGates,
    Call::UnitaryToGates,
    Call::GatesToOperator,
    Call::SheetToOperator,
    Call::StatesToOrder,
    Call::BundleSheet,
    Call::SheetsToBundle,
    Call::GatesToQasm,
    Call::QasmToGates,
    Call::BlocksToLayers,
];

/// What a call answered.
#[derive(Clone, Copy, Debug, PartialEq, Eq)]
pub enum Answer {
    /// The count, or the figure of states, the number of letters written, L, and the sign.
    Count {
        count: u64,
        letters: usize,
        loose: u8,
        sign: u8,
    },
    /// The count of a unitary, the number of letters written, L, and the power of ω.
    Unitary {
        count: u64,
        letters: usize,
        loose: u8,
        omega: u8,
    },
    /// The number of bytes written.
    Written(usize),
    /// The number of layers.
    Layers(usize),
    /// A part of the bundle: the place of its first byte, and its length.
    Part { place: usize, length: usize },
    /// The refusal's number.
    Refused(u8),
    /// A word that the interface does not know.
    Unknown,
}

impl Answer {
    /// The count, or the figure of states, with nothing beside it.
    pub fn count(count: u64) -> Answer {
        Answer::Count {
            count,
            letters: 0,
            loose: 0,
            sign: 0,
        }
    }

    /// The answer as far as the papers settle it: the letters are free, and the sign or the power of ω
    /// follows from them.
    pub fn without_letters(self) -> Answer {
        match self {
            Answer::Count { count, loose, .. } => Answer::Count {
                count,
                letters: 0,
                loose,
                sign: 0,
            },
            Answer::Unitary { count, loose, .. } => Answer::Unitary {
                count,
                letters: 0,
                loose,
                omega: 0,
            },
            other => other,
        }
    }
}

impl Call {
    /// The name of the call.
    pub fn name(self) -> &'static str {
        match self {
            Call::OperatorToSheet => "operator_to_sheet",
            Call::OperatorToGates => "operator_to_gates",
            Call::UnitaryToGates => "unitary_to_gates",
            Call::GatesToOperator => "gates_to_operator",
            Call::SheetToOperator => "sheet_to_operator",
            Call::StatesToOrder => "states_to_order",
            Call::BundleSheet => "bundle_sheet",
            Call::SheetsToBundle => "sheets_to_bundle",
            Call::GatesToQasm => "gates_to_qasm",
            Call::QasmToGates => "qasm_to_gates",
            Call::BlocksToLayers => "blocks_to_layers",
        }
    }

    /// The refusals that the call can answer, in the order in which they are looked for.
    pub fn refusals(self) -> &'static [u8] {
        match self {
            Call::OperatorToSheet | Call::OperatorToGates => &[1, 2, 3, 4, 5, 6],
            Call::UnitaryToGates => &[17, 18, 19, 6],
            Call::GatesToOperator => &[7, 8, 9, 6],
            Call::SheetToOperator => &[10, 16, 11, 12, 15, 13, 6],
            Call::StatesToOrder => &[14],
            Call::BundleSheet => &[20, 21, 22],
            Call::SheetsToBundle => &[20, 21, 6],
            Call::GatesToQasm => &[7, 8, 6],
            Call::QasmToGates => &[23, 7, 6],
            Call::BlocksToLayers => &[24, 25, 6],
        }
    }

    /// Runs the library under test on lent bytes.
    pub fn tested(self, input: &[u8], out: &mut [u8]) -> Answer {
        let call = || match self {
            Call::OperatorToSheet => match dimfrets::operator_to_sheet(input, out) {
                Ok(cuts) => of_cuts(cuts.count, cuts.loose),
                Err(refusal) => Answer::Refused(refusal.number()),
            },
            Call::OperatorToGates => match dimfrets::operator_to_gates(input, out) {
                Ok(dimfrets::Letters {
                    count,
                    letters,
                    loose,
                    sign,
                }) => of_letters(count, letters, loose, sign),
                Err(refusal) => Answer::Refused(refusal.number()),
            },
            Call::UnitaryToGates => match dimfrets::unitary_to_gates(input, out) {
                Ok(dimfrets::UnitaryLetters {
                    count,
                    letters,
                    loose,
                    omega,
                }) => of_unitary(count, letters, loose, omega),
                Err(refusal) => Answer::Refused(refusal.number()),
            },
            Call::GatesToOperator => of_refusal(dimfrets::gates_to_operator(input, out)),
            Call::SheetToOperator => of_refusal(dimfrets::sheet_to_operator(input, out)),
            Call::StatesToOrder => {
                of_refusal(dimfrets::states_to_order(word(input, 0), word(input, 1)))
            }
            Call::BundleSheet => {
                let bundle = bundle(input);
                let part = dimfrets::bundle_sheet(bundle, word(input, 0));
                of_part(bundle, part.map_err(Refusal::number))
            }
            Call::SheetsToBundle => of_bytes(dimfrets::sheets_to_bundle(input, out)),
            Call::GatesToQasm => of_bytes(dimfrets::gates_to_qasm(input, out)),
            Call::QasmToGates => of_bytes(dimfrets::qasm_to_gates(input, out)),
            Call::BlocksToLayers => {
                let number = dimfrets::blocks_to_layers(input, out);
                of_layers(number.map_err(Refusal::number))
            }
        };
        catch_unwind(AssertUnwindSafe(call)).unwrap_or(Answer::Unknown)
    }

    /// Runs the plain implementation on lent bytes.
    pub fn plain(self, input: &[u8], out: &mut [u8]) -> Answer {
        match self {
            Call::OperatorToSheet => match plain::operator_to_sheet(input, out) {
                Ok(cuts) => of_cuts(cuts.count, cuts.loose),
                Err(number) => Answer::Refused(number),
            },
            Call::OperatorToGates => match plain::operator_to_gates(input, out) {
                Ok(plain::Letters {
                    count,
                    letters,
                    loose,
                    sign,
                }) => of_letters(count, letters, loose, sign),
                Err(number) => Answer::Refused(number),
            },
            Call::UnitaryToGates => match plain::unitary_to_gates(input, out) {
                Ok(plain::UnitaryLetters {
                    count,
                    letters,
                    loose,
                    omega,
                }) => of_unitary(count, letters, loose, omega),
                Err(number) => Answer::Refused(number),
            },
            Call::GatesToOperator => of_number(plain::gates_to_operator(input, out)),
            Call::SheetToOperator => of_number(plain::sheet_to_operator(input, out)),
            Call::StatesToOrder => {
                of_number(plain::states_to_order(word(input, 0), word(input, 1)))
            }
            Call::BundleSheet => {
                let bundle = bundle(input);
                of_part(bundle, plain::bundle_sheet(bundle, word(input, 0)))
            }
            Call::SheetsToBundle => of_written(plain::sheets_to_bundle(input, out)),
            Call::GatesToQasm => of_written(plain::gates_to_qasm(input, out)),
            Call::QasmToGates => of_written(plain::qasm_to_gates(input, out)),
            Call::BlocksToLayers => of_layers(plain::blocks_to_layers(input, out)),
        }
    }
}

/// The input of an order: t and p as eight bytes each.
pub fn order(t: u64, p: u64) -> Vec<u8> {
    [t.to_le_bytes(), p.to_le_bytes()].concat()
}

/// The input of a question for a sheet: n as eight bytes, then the bundle.
pub fn question(n: u64, bundle: &[u8]) -> Vec<u8> {
    [&n.to_le_bytes(), bundle].concat()
}

/// The bundle of a question.
pub fn bundle(input: &[u8]) -> &[u8] {
    &input[size_of::<u64>()..]
}

fn word(input: &[u8], index: usize) -> u64 {
    let (words, _) = input.as_chunks();
    u64::from_le_bytes(words[index])
}

fn of_refusal(answer: Result<u8, Refusal>) -> Answer {
    of_number(answer.map_err(Refusal::number))
}

fn of_number(answer: Result<impl Into<u64>, u8>) -> Answer {
    match answer {
        Ok(count) => Answer::count(count.into()),
        Err(number) => Answer::Refused(number),
    }
}

fn of_cuts(count: u8, loose: u8) -> Answer {
    of_letters(count, 0, loose, 0)
}

fn of_letters(count: u8, letters: usize, loose: u8, sign: u8) -> Answer {
    Answer::Count {
        count: count.into(),
        letters,
        loose,
        sign,
    }
}

fn of_unitary(count: u8, letters: usize, loose: u8, omega: u8) -> Answer {
    Answer::Unitary {
        count: count.into(),
        letters,
        loose,
        omega,
    }
}

fn of_bytes(answer: Result<usize, Refusal>) -> Answer {
    of_written(answer.map_err(Refusal::number))
}

fn of_written(answer: Result<usize, u8>) -> Answer {
    match answer {
        Ok(bytes) => Answer::Written(bytes),
        Err(number) => Answer::Refused(number),
    }
}

fn of_layers(answer: Result<u8, u8>) -> Answer {
    match answer {
        Ok(number) => Answer::Layers(number.into()),
        Err(number) => Answer::Refused(number),
    }
}

/// Where a part stands, told by its address: equal bytes at another place are another part.
fn of_part(bundle: &[u8], answer: Result<&[u8], u8>) -> Answer {
    match answer {
        Ok(part) => Answer::Part {
            place: part.as_ptr().addr().wrapping_sub(bundle.as_ptr().addr()),
            length: part.len(),
        },
        Err(number) => Answer::Refused(number),
    }
}
