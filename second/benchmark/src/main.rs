//! Measures the time per call of the library and of the plain implementation, on the same inputs
//! and in the same run, and prints a table in Markdown. With `--letters` it measures nothing and prints
//! a table of the letters that the library writes for the inputs of `operator_to_gates`.

#![forbid(unsafe_code)]

use std::hint::black_box;
use std::process::ExitCode;
use std::time::{Duration, Instant};

use samples::Random;

const COUNTS: [u8; 6] = [0, 7, 14, 28, 45, dimfrets::MAX_COUNT];
const UNITARY_COUNTS: [u8; 6] = [0, 7, 14, 28, 45, samples::MAX_UNITARY_COUNT];
const BLOCK_COUNTS: [u8; 6] = [0, 7, 14, 28, 45, dimfrets::MAX_BLOCKS as u8];
const INPUTS: usize = 64;
const ROUNDS: usize = 15;
const ROUND_TIME: Duration = Duration::from_millis(15);
const BUFFER: usize = dimfrets::QASM_BUFFER;
const SHEETS: usize = dimfrets::MAX_SHEETS;
const LAST_SHEET: u64 = SHEETS as u64 - 1;
const GATES: &str = "operator_to_gates";
const UNITARY: &str = "unitary_to_gates";
const LAYERS: &str = "blocks_to_layers";
const LAYERS_OF_ONE_PAIR: &str = "blocks_to_layers on one pair";

// One buffer holds whatever a call writes.
const _: () = assert!(BUFFER >= dimfrets::GATES_BUFFER && BUFFER >= dimfrets::BUNDLE_BUFFER);

/// One run of a call; the number keeps it from being left out.
type Run = fn(&[u8], &mut [u8]) -> u64;

/// A call on both implementations, and the maker of its inputs for a count.
struct Subject {
    name: &'static str,
    input: fn(&mut Random, u8) -> Vec<u8>,
    dimfrets: Run,
    plain: Run,
}

const SUBJECTS: [Subject; 12] = [
    Subject {
        name: "operator_to_sheet",
        input: operator_file,
        dimfrets: |file, out| dimfrets::operator_to_sheet(file, out).unwrap().count.into(),
        plain: |file, out| plain::operator_to_sheet(file, out).unwrap().count.into(),
    },
    Subject {
        name: GATES,
        input: operator_file,
        dimfrets: |file, out| dimfrets::operator_to_gates(file, out).unwrap().letters as u64,
        plain: |file, out| plain::operator_to_gates(file, out).unwrap().letters as u64,
    },
    Subject {
        name: UNITARY,
        input: unitary,
        dimfrets: |unitary, out| dimfrets::unitary_to_gates(unitary, out).unwrap().letters as u64,
        plain: |unitary, out| plain::unitary_to_gates(unitary, out).unwrap().letters as u64,
    },
    Subject {
        name: "gates_to_operator",
        input: gate_list,
        dimfrets: |list, out| dimfrets::gates_to_operator(list, out).unwrap().into(),
        plain: |list, out| plain::gates_to_operator(list, out).unwrap().into(),
    },
    Subject {
        name: "sheet_to_operator",
        input: samples::sheet,
        dimfrets: |sheet, out| dimfrets::sheet_to_operator(sheet, out).unwrap().into(),
        plain: |sheet, out| plain::sheet_to_operator(sheet, out).unwrap().into(),
    },
    Subject {
        name: "states_to_order",
        input: order,
        dimfrets: |order, _| {
            dimfrets::states_to_order(t(order), p(order))
                .unwrap()
                .into()
        },
        plain: |order, _| plain::states_to_order(t(order), p(order)).unwrap(),
    },
    Subject {
        name: "bundle_sheet",
        input: bundle,
        dimfrets: |bundle, _| dimfrets::bundle_sheet(bundle, LAST_SHEET).unwrap().len() as u64,
        plain: |bundle, _| plain::bundle_sheet(bundle, LAST_SHEET).unwrap().len() as u64,
    },
    Subject {
        name: "sheets_to_bundle",
        input: sheets,
        dimfrets: |sheets, out| dimfrets::sheets_to_bundle(sheets, out).unwrap() as u64,
        plain: |sheets, out| plain::sheets_to_bundle(sheets, out).unwrap() as u64,
    },
    Subject {
        name: "gates_to_qasm",
        input: gate_list,
        dimfrets: |list, out| dimfrets::gates_to_qasm(list, out).unwrap() as u64,
        plain: |list, out| plain::gates_to_qasm(list, out).unwrap() as u64,
    },
    Subject {
        name: "qasm_to_gates",
        input: text,
        dimfrets: |text, out| dimfrets::qasm_to_gates(text, out).unwrap() as u64,
        plain: |text, out| plain::qasm_to_gates(text, out).unwrap() as u64,
    },
    Subject {
        name: LAYERS,
        input: blocks,
        dimfrets: |blocks, out| dimfrets::blocks_to_layers(blocks, out).unwrap().into(),
        plain: |blocks, out| plain::blocks_to_layers(blocks, out).unwrap().into(),
    },
    Subject {
        name: LAYERS_OF_ONE_PAIR,
        input: blocks_on_one_pair,
        dimfrets: |blocks, out| dimfrets::blocks_to_layers(blocks, out).unwrap().into(),
        plain: |blocks, out| plain::blocks_to_layers(blocks, out).unwrap().into(),
    },
];

fn main() -> ExitCode {
    match std::env::args().nth(1).as_deref() {
        None => print_times(),
        Some("--letters") => print_letters(),
        Some(_) => {
            eprintln!("no argument, or --letters");
            return ExitCode::FAILURE;
        }
    }
    ExitCode::SUCCESS
}

fn print_times() {
    println!("| call | count | dimfrets ns | plain ns | ratio |");
    println!("|---|---:|---:|---:|---:|");
    for_each_row(|subject, count, inputs| {
        let [dimfrets, plain] = measure([subject.dimfrets, subject.plain], inputs);
        let (name, ratio) = (subject.name, dimfrets / plain);
        println!("| {name} | {count} | {dimfrets:.1} | {plain:.1} | {ratio:.2} |");
    });
}

fn print_letters() {
    println!("| count | lists | letters | Z | C |");
    println!("|---:|---:|---:|---:|---:|");
    for_each_row(|subject, count, inputs| {
        if subject.name == GATES {
            let letters: Vec<u8> = inputs.iter().flat_map(|file| gates(file)).collect();
            let times = |wanted| letters.iter().filter(|&&letter| letter == wanted).count();
            let (lists, cz_gates, cs_gates) = (inputs.len(), times(b'Z'), times(b'C'));
            let letters = letters.len();
            println!("| {count} | {lists} | {letters} | {cz_gates} | {cs_gates} |");
        }
    });
}

/// The counts of a subject's inputs; unitaries are not drawn of the largest count of an operator, and that of
/// a program is its number of blocks.
fn counts(subject: &Subject) -> [u8; 6] {
    match subject.name {
        UNITARY => UNITARY_COUNTS,
        LAYERS | LAYERS_OF_ONE_PAIR => BLOCK_COUNTS,
        _ => COUNTS,
    }
}

/// Hands out every subject with every count of its inputs and the inputs that are drawn for the two.
fn for_each_row(row: impl Fn(&Subject, u8, &[Vec<u8>])) {
    let mut random = Random::new(6);
    for subject in &SUBJECTS {
        for count in counts(subject) {
            let inputs: Vec<_> = (0..INPUTS)
                .map(|_| (subject.input)(&mut random, count))
                .collect();
            row(subject, count, &inputs);
        }
    }
}

/// The median time per call, in nanoseconds, of two calls that take turns.
fn measure(calls: [Run; 2], inputs: &[Vec<u8>]) -> [f64; 2] {
    let passes = calls.map(|call| passes_in_a_round(call, inputs));
    let mut rounds = [[0.0; 2]; ROUNDS];
    for round in &mut rounds {
        for (side, time) in round.iter_mut().enumerate() {
            let elapsed = time_passes(calls[side], inputs, passes[side]);
            *time = elapsed.as_nanos() as f64 / (passes[side] * inputs.len()) as f64;
        }
    }
    [0, 1].map(|side| median(rounds.map(|round| round[side])))
}

/// How many passes over the inputs fill a round; finding out warms up.
fn passes_in_a_round(call: Run, inputs: &[Vec<u8>]) -> usize {
    let mut passes = 1;
    while time_passes(call, inputs, passes) < ROUND_TIME {
        passes *= 2;
    }
    passes
}

fn time_passes(call: Run, inputs: &[Vec<u8>], passes: usize) -> Duration {
    let mut out = vec![0; BUFFER];
    let start = Instant::now();
    for _ in 0..passes {
        for input in inputs {
            black_box(call(black_box(input), black_box(&mut out)));
        }
    }
    start.elapsed()
}

fn median(mut times: [f64; ROUNDS]) -> f64 {
    times.sort_by(f64::total_cmp);
    times[ROUNDS / 2]
}

/// An operator file, a short one where that suffices.
fn operator_file(random: &mut Random, count: u8) -> Vec<u8> {
    samples::file(&samples::operator(random, count))
}

/// A unitary with the least exponent that the count allows.
fn unitary(random: &mut Random, count: u8) -> Vec<u8> {
    samples::unitary_bytes(&samples::unitary(random, count, count.div_ceil(2)))
}

/// The gate list that the library writes for an operator file.
fn gates(file: &[u8]) -> Vec<u8> {
    let mut list = vec![0; BUFFER];
    let written = dimfrets::operator_to_gates(file, &mut list);
    list.truncate(written.expect("an accepted operator").letters);
    list
}

/// The gate list that the plain implementation writes for an operator of the count.
fn gate_list(random: &mut Random, count: u8) -> Vec<u8> {
    let mut list = vec![0; BUFFER];
    let written = plain::operator_to_gates(&operator_file(random, count), &mut list);
    let letters = written.expect("an accepted operator").letters;
    list.truncate(letters);
    list
}

/// The text of such a list.
fn text(random: &mut Random, count: u8) -> Vec<u8> {
    samples::Text::of(&gate_list(random, count)).bytes()
}

/// As many sheets of the count as a bundle holds, all of them the same.
fn sheets(random: &mut Random, count: u8) -> Vec<u8> {
    samples::sheet(random, count).repeat(SHEETS)
}

/// The bundle of such sheets.
fn bundle(random: &mut Random, count: u8) -> Vec<u8> {
    let mut bundle = vec![0; BUFFER];
    let written = plain::sheets_to_bundle(&sheets(random, count), &mut bundle);
    bundle.truncate(written.expect("as many sheets as there may be"));
    bundle
}

/// As many blocks as the count says, each on any two qubits.
fn blocks(random: &mut Random, count: u8) -> Vec<u8> {
    samples::blocks_on(random, dimfrets::QUBITS.into(), count.into()).concat()
}

/// The same, all on two qubits.
fn blocks_on_one_pair(random: &mut Random, count: u8) -> Vec<u8> {
    samples::blocks_on(random, 2, count.into()).concat()
}

/// t and p, the spoilage, as eight bytes each.
fn order(random: &mut Random, count: u8) -> Vec<u8> {
    let spoilage = random.below(1001) as u64;
    [u64::from(count).to_le_bytes(), spoilage.to_le_bytes()].concat()
}

fn t(order: &[u8]) -> u64 {
    u64::from_le_bytes(*order.first_chunk().expect("eight bytes"))
}

fn p(order: &[u8]) -> u64 {
    u64::from_le_bytes(*order.last_chunk().expect("eight bytes"))
}
