//! The judge runs one input on both implementations and compares. It ends the program at the first
//! difference.

use plain::bundle::MAX_BUNDLE;
use plain::file::{Kind, LONG_BYTES, MAX_EXPONENT};
use plain::form;
use plain::gate::LETTERS_PER_COUNT;
use plain::layer::BLOCK_BYTES;
use plain::operator::Operator;
use plain::qasm::{self, MAX_STATEMENT};
use plain::refusal::NO_SHEET;
use plain::sheet::{MAX_SHEET, MIN_SHEET};
use plain::unitary::Unitary;
use samples::{Random, Text, FIRST_LINES, MAX_UNITARY_COUNT};

use crate::call::{self, Answer, Call};
use crate::gates;
use crate::layers;
use crate::lent::Lent;
use crate::tally::Tally;

/// A buffer that is much too long has up to this many bytes more than needed.
const MUCH: usize = 3000;

/// Compares the implementations and keeps the tally.
pub struct Judge {
    pub tally: Tally,
    random: Random,
}

/// One of the implementations.
type Run = fn(Call, &[u8], &mut [u8]) -> Answer;

/// One input and what came of it.
struct Case<'a> {
    call: Call,
    input: &'a [u8],
    tested: (Answer, Lent),
    plain: (Answer, Lent),
}

impl Judge {
    pub fn new() -> Judge {
        Judge {
            tally: Tally::new(),
            random: Random::new(7),
        }
    }

    /// Runs the input with a buffer of one of the lengths that matter to it.
    pub fn run(&mut self, call: Call, input: &[u8]) {
        let needed = self.needed(call, input);
        let out_len = match self.random.below(8) {
            0 => 0,
            1 => needed.saturating_sub(1),
            2 => needed + 1,
            3 => needed + self.random.below(MUCH),
            4 => self.random.below(needed + 1),
            _ => needed,
        };
        self.run_with(call, input, out_len);
    }

    /// Runs the input with a buffer of the given length; hands out the answer and the output.
    pub fn run_with(&mut self, call: Call, input: &[u8], out_len: usize) -> (Answer, Vec<u8>) {
        let lent_input = Lent::holding(&mut self.random, input);
        let mut tested_out = Lent::new(&mut self.random, out_len);
        let mut plain_out = tested_out.clone();
        let tested = call.tested(lent_input.middle(), tested_out.middle_mut());
        let plain = call.plain(input, plain_out.middle_mut());
        let case = Case {
            call,
            input,
            tested: (tested, tested_out),
            plain: (plain, plain_out),
        };
        case.check(lent_input.unchanged_past(0));
        self.tally.add(call, tested, case.last_byte());
        if let Some((file, count)) = case.file() {
            self.tally.add_file(call, file, count);
        }
        self.tally.add_buffer(call, tested, out_len);
        if let Some((list, beside)) = case.gates() {
            self.tally.add_gates(call, list, beside);
        }
        if let Some(bundle) = case.bundle() {
            self.tally.add_bundle(call, tested, bundle);
        }
        if let Some((_, text)) = case.list_and_text() {
            self.tally.add_text(call, text);
        }
        if let Some((_, number)) = case.layers() {
            self.tally.add_program(input, number);
        }
        (tested, case.output().to_vec())
    }

    /// The length of buffer that the input calls for, or would if it were accepted.
    fn needed(&mut self, call: Call, input: &[u8]) -> usize {
        let mut sheet = [0; MAX_SHEET];
        let mut count = || match plain::operator_to_sheet(input, &mut sheet) {
            Ok(cuts) => usize::from(cuts.count),
            Err(_) => self.random.below(usize::from(MAX_EXPONENT) + 1),
        };
        match call {
            Call::OperatorToSheet => count() + MIN_SHEET,
            Call::OperatorToGates => LETTERS_PER_COUNT * (count() + 1),
            Call::UnitaryToGates => {
                let count = match Unitary::read(input) {
                    Ok(unitary) => form::of_unitary(&unitary).exponent.into(),
                    Err(_) => self.random.below(usize::from(MAX_UNITARY_COUNT) + 1),
                };
                LETTERS_PER_COUNT * (count + 1)
            }
            Call::GatesToOperator | Call::SheetToOperator => {
                let kind = match call.plain(input, &mut [0; LONG_BYTES]) {
                    Answer::Count { count, .. } => Kind::written(count as u8),
                    _ => *self.random.pick(&Kind::ALL),
                };
                kind.bytes()
            }
            Call::StatesToOrder | Call::BundleSheet => 0,
            Call::SheetsToBundle => {
                let written = plain::sheets_to_bundle(input, &mut [0; MAX_BUNDLE]);
                written.unwrap_or_else(|_| self.random.below(MAX_BUNDLE))
            }
            Call::GatesToQasm => match qasm::of_list(input) {
                Ok(text) => text.len(),
                Err(_) => {
                    let lines = FIRST_LINES.len() + input.len();
                    self.random.below(MAX_STATEMENT * lines)
                }
            },
            Call::QasmToGates => {
                let lines = input.iter().filter(|&&byte| byte == b'\n').count();
                lines.saturating_sub(FIRST_LINES.len())
            }
            Call::BlocksToLayers => input.len() / BLOCK_BYTES,
        }
    }
}

impl Case<'_> {
    /// Ends the program unless both implementations did the same and kept to their buffers.
    fn check(&self, input_unchanged: bool) {
        self.demand(input_unchanged, "the input or the bytes around it changed");
        let (tested, tested_out) = &self.tested;
        let (plain, plain_out) = &self.plain;
        self.demand(
            tested.without_letters() == plain.without_letters(),
            "the answers differ",
        );
        let fits = self.written(*tested) <= tested_out.middle().len();
        self.demand(fits, "more bytes are answered than the buffer holds");
        let kept = tested_out.unchanged_past(self.written(*tested));
        self.demand(kept, "a byte outside the output changed");
        let plain_kept = plain_out.unchanged_past(self.written(*plain));
        self.demand(
            plain_kept,
            "the plain implementation changed a byte outside the output",
        );
        match (self.call, *tested) {
            (Call::OperatorToGates, Answer::Count { .. }) => self.check_gates(),
            (Call::UnitaryToGates, Answer::Unitary { .. }) => self.check_unitary(),
            _ => self.demand(tested_out.same(plain_out), "the output differs"),
        }
        if let Some((list, text)) = self.list_and_text() {
            self.check_text(list, text);
        }
        if let Some((layers, number)) = self.layers() {
            self.check_layers(layers, number);
        }
    }

    /// Both gate lists keep their promises; the letters need not be the same, nor with them the signs.
    fn check_gates(&self) {
        for (name, (answer, out)) in self.sides() {
            let (count, sign) = match *answer {
                Answer::Count { count, sign, .. } => (count, sign),
                _ => unreachable!("both implementations answer a count"),
            };
            let list = &out.middle()[..self.written(*answer)];
            if let Err(fault) = gates::check(self.input, list, count, sign) {
                self.end(&format!("{name}: {fault}"));
            }
        }
    }

    /// Both gate lists of a unitary keep their promises. Each is also what the same implementation writes
    /// for the unitary's form and for the negative of that.
    fn check_unitary(&self) {
        let unitary = Unitary::read(self.input).expect("an accepted unitary");
        let form = form::of_unitary(&unitary);
        let runs: [Run; 2] = [Call::tested, Call::plain];
        for ((name, (answer, out)), run) in self.sides().into_iter().zip(runs) {
            let (count, loose, omega) = match *answer {
                Answer::Unitary {
                    count,
                    loose,
                    omega,
                    ..
                } => (count, loose, omega),
                _ => unreachable!("both implementations answer a unitary"),
            };
            let list = &out.middle()[..self.written(*answer)];
            if let Err(fault) = gates::check_unitary(self.input, list, count, omega) {
                self.end(&format!("{name}: {fault}"));
            }
            for form in [form, form.negative()] {
                if gates_of(run, &form) != Some((count, list.to_vec(), loose)) {
                    self.end(&format!("{name}: the form has another gate list"));
                }
            }
        }
    }

    /// The text is read as the list, and the list is written as the text but for the order of qubits.
    fn check_text(&self, list: &[u8], text: &[u8]) {
        let read = qasm::read(text);
        let is_read = read.as_deref() == Ok(list);
        self.demand(is_read, "the text is not read as the list");
        let in_order = String::from_utf8_lossy(text).replace("q[1],q[0]", "q[0],q[1]");
        let is_written = Text::of(list).bytes() == in_order.as_bytes();
        self.demand(is_written, "the text is not the one of the list");
    }

    /// The layers, which both implementations gave, keep what is promised of them.
    fn check_layers(&self, layers: &[u8], number: usize) {
        if let Err(fault) = layers::check(self.input, layers, number) {
            self.end(&format!("both: {fault}"));
        }
    }

    /// The number of bytes that a call with this answer writes.
    fn written(&self, answer: Answer) -> usize {
        match (self.call, answer) {
            (Call::OperatorToSheet, Answer::Count { count, .. }) => count as usize + MIN_SHEET,
            (Call::OperatorToGates, Answer::Count { letters, .. }) => letters,
            (Call::UnitaryToGates, Answer::Unitary { letters, .. }) => letters,
            (Call::GatesToOperator | Call::SheetToOperator, Answer::Count { count, .. }) => {
                Kind::written(count as u8).bytes()
            }
            (_, Answer::Written(bytes)) => bytes,
            (Call::BlocksToLayers, Answer::Layers(_)) => self.input.len() / BLOCK_BYTES,
            _ => 0,
        }
    }

    /// What the library under test wrote.
    fn output(&self) -> &[u8] {
        let (answer, out) = &self.tested;
        &out.middle()[..self.written(*answer)]
    }

    /// The last byte of the sheet that was written or read, if one was.
    fn last_byte(&self) -> Option<u8> {
        let sheet = match (self.call, self.tested.0) {
            (Call::OperatorToSheet, Answer::Count { .. }) => self.output(),
            (Call::SheetToOperator, Answer::Count { .. }) => self.input,
            _ => return None,
        };
        sheet.last().copied()
    }

    /// The operator file that was written or read, and the count of its operator, if one was.
    fn file(&self) -> Option<(&[u8], u64)> {
        let Answer::Count { count, .. } = self.tested.0 else {
            return None;
        };
        match self.call {
            Call::OperatorToSheet | Call::OperatorToGates => Some((self.input, count)),
            Call::GatesToOperator | Call::SheetToOperator => Some((self.output(), count)),
            _ => None,
        }
    }

    /// The gate list that an operator or a unitary was cut into, and its sign or power of ω, if one was.
    fn gates(&self) -> Option<(&[u8], u8)> {
        match (self.call, self.tested.0) {
            (Call::OperatorToGates, Answer::Count { sign, .. }) => Some((self.output(), sign)),
            (Call::UnitaryToGates, Answer::Unitary { omega, .. }) => Some((self.output(), omega)),
            _ => None,
        }
    }

    /// The bundle that was written or read, if one was; it was also read where it has no sheet n.
    fn bundle(&self) -> Option<&[u8]> {
        match (self.call, self.tested.0) {
            (Call::SheetsToBundle, Answer::Written(_)) => Some(self.output()),
            (Call::BundleSheet, Answer::Part { .. } | Answer::Refused(NO_SHEET)) => {
                Some(call::bundle(self.input))
            }
            _ => None,
        }
    }

    /// The list and the text of which one was read and the other written, if they were.
    fn list_and_text(&self) -> Option<(&[u8], &[u8])> {
        match (self.call, self.tested.0) {
            (Call::GatesToQasm, Answer::Written(_)) => Some((self.input, self.output())),
            (Call::QasmToGates, Answer::Written(_)) => Some((self.output(), self.input)),
            _ => None,
        }
    }

    /// The layers that were written, and their number, if they were.
    fn layers(&self) -> Option<(&[u8], usize)> {
        match self.tested.0 {
            Answer::Layers(number) => Some((self.output(), number)),
            _ => None,
        }
    }

    fn demand(&self, holds: bool, otherwise: &str) {
        if !holds {
            self.end(otherwise);
        }
    }

    /// What came of both implementations, with their names.
    fn sides(&self) -> [(&'static str, &(Answer, Lent)); 2] {
        [("dimfrets", &self.tested), ("plain", &self.plain)]
    }

    /// Prints what is wrong and ends the program.
    fn end(&self, wrong: &str) -> ! {
        println!("{}: {wrong}", self.call.name());
        println!("input ({} bytes): {}", self.input.len(), hex(self.input));
        for (name, (answer, out)) in self.sides() {
            let out = out.middle();
            println!(
                "{name}: {answer:?}, buffer ({} bytes): {}",
                out.len(),
                hex(out)
            );
        }
        std::process::exit(1);
    }
}

/// The count, the gate list and the L that an implementation gives for an operator, if it does.
fn gates_of(run: Run, operator: &Operator) -> Option<(u64, Vec<u8>, u8)> {
    let mut out = vec![0; LETTERS_PER_COUNT * (usize::from(operator.exponent) + 1)];
    match run(Call::OperatorToGates, &samples::file(operator), &mut out) {
        Answer::Count {
            count,
            letters,
            loose,
            ..
        } => {
            out.truncate(letters);
            Some((count, out, loose))
        }
        _ => None,
    }
}

fn hex(bytes: &[u8]) -> String {
    bytes.iter().map(|byte| format!("{byte:02x}")).collect()
}
