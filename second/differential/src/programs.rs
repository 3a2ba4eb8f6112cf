//! Programs: of every number of blocks in every number of layers that they can have, on few qubits and on
//! many, and ones damaged in every way that document 02 turns away.

mod damages;

use plain::layer::{Block, BLOCK_BYTES, MAX_BLOCKS, QUBITS};
use plain::refusal::{BLOCK_QUBITS, BUFFER_TOO_SHORT, PROGRAM_LENGTH};
use samples::{blocks_on, Program, Random, MAX_BLOCKS_PER_LAYER};

use crate::call::{Answer, Call};
use crate::judge::Judge;
use crate::trials::{expect, same};

use damages::{high_qubit, put_high_qubit, put_one_qubit_twice, BLOCK_DAMAGES, BYTE_DAMAGES};

const PROGRAMS: usize = 30_000;
const PROGRAMS_PER_LENGTH: usize = 20;
const ROUNDS_OF_PLACES: usize = 4;

/// Numbers of bytes above the most that a program has: the next ones, and ones of which the low part looks
/// allowed, or that of the number of blocks.
const FAR: [usize; 22] = [
    129, 130, 131, 132, 254, 255, 256, 257, 258, 384, 385, 386, 512, 514, 640, 65_535, 65_536,
    65_537, 65_538, 65_664, 131_072, 131_074,
];

/// Makers of so many blocks.
const MAKERS: [fn(&mut Random, usize) -> Vec<Block>; 5] = [
    on_few_qubits,
    on_many_qubits,
    on_one_pair,
    chain,
    in_few_layers,
];

/// Runs the call that finds layers.
pub fn run(judge: &mut Judge) {
    let mut random = Random::new(18);
    for blocks in 0..=MAX_BLOCKS {
        for layers in blocks.div_ceil(MAX_BLOCKS_PER_LAYER)..=blocks {
            let program = Program::in_layers(&mut random, blocks, layers);
            lay_out(judge, &program, layers);
        }
    }
    for _ in 0..PROGRAMS {
        run_and_damage(judge, &mut random);
    }
    let odd = (1..BLOCK_BYTES * MAX_BLOCKS).step_by(BLOCK_BYTES);
    for length in odd.chain(FAR) {
        for _ in 0..PROGRAMS_PER_LENGTH {
            refuse_length(judge, &mut random, length);
        }
    }
    for place in (0..ROUNDS_OF_PLACES).flat_map(|_| 0..MAX_BLOCKS) {
        refuse_block(judge, &mut random, place);
    }
}

/// Ends the run unless a program has the layers that it was drawn for, and none where a byte is missing in
/// the buffer, or all are.
fn lay_out(judge: &mut Judge, program: &Program, layers: usize) {
    let bytes = program.bytes();
    let answer = Answer::Layers(layers);
    expect(judge, Call::BlocksToLayers, &bytes, answer, &program.layers);
    let short = program.layers.len().checked_sub(1);
    for room in short.into_iter().flat_map(|short| [short, 0]) {
        let outcome = judge.run_with(Call::BlocksToLayers, &bytes, room);
        let refused = (Answer::Refused(BUFFER_TOO_SHORT), vec![]);
        same(Call::BlocksToLayers, &bytes, &outcome, &refused);
    }
}

/// Runs a program, and then what damages leave of it.
fn run_and_damage(judge: &mut Judge, random: &mut Random) {
    let mut blocks = any_blocks(random);
    judge.run(Call::BlocksToLayers, &blocks.concat());
    let [of_blocks, of_bytes] = mixture(random);
    for _ in 0..of_blocks {
        random.pick(&BLOCK_DAMAGES)(random, &mut blocks);
    }
    let mut bytes = blocks.concat();
    for _ in 0..of_bytes {
        random.pick(&BYTE_DAMAGES)(random, &mut bytes);
    }
    judge.run(Call::BlocksToLayers, &bytes);
}

/// How many damages a program has: of its blocks, of its bytes.
fn mixture(random: &mut Random) -> [usize; 2] {
    match random.below(8) {
        0..=2 => [1, 0],
        3 => [2, 0],
        4 | 5 => [0, 1],
        _ => [1, 1],
    }
}

/// Ends the run unless bytes of a wrong number are refused for it, whether or not a block is wrong too.
fn refuse_length(judge: &mut Judge, random: &mut Random, length: usize) {
    let mut blocks = on_many_qubits(random, length.div_ceil(BLOCK_BYTES));
    if random.chance(2) {
        random.pick(&[put_high_qubit, put_one_qubit_twice])(random, &mut blocks);
    }
    let bytes = &blocks.concat()[..length];
    let answer = Answer::Refused(PROGRAM_LENGTH);
    expect(judge, Call::BlocksToLayers, bytes, answer, &[]);
    judge.run(Call::BlocksToLayers, bytes);
}

/// Ends the run unless a program is refused whose block at a place is wrong, and has layers where it is
/// not.
fn refuse_block(judge: &mut Judge, random: &mut Random, place: usize) {
    let more = random.below(MAX_BLOCKS - place);
    let blocks = on_many_qubits(random, place + 1 + more);
    judge.run(Call::BlocksToLayers, &blocks.concat());
    let [first, second] = blocks[place];
    let high = high_qubit(random);
    for wrong in [
        [first, high],
        [high, second],
        [high, high],
        [first, first],
        [second, second],
    ] {
        let mut blocks = blocks.clone();
        blocks[place] = wrong;
        let bytes = blocks.concat();
        let answer = Answer::Refused(BLOCK_QUBITS);
        expect(judge, Call::BlocksToLayers, &bytes, answer, &[]);
        judge.run(Call::BlocksToLayers, &bytes);
    }
}

/// Blocks of any number that a program may have; the ends of the range are frequent.
fn any_blocks(random: &mut Random) -> Vec<Block> {
    let number = match random.below(8) {
        0 => random.below(3),
        1 => MAX_BLOCKS - random.below(3),
        _ => random.below(MAX_BLOCKS + 1),
    };
    random.pick(&MAKERS)(random, number)
}

fn on_few_qubits(random: &mut Random, number: usize) -> Vec<Block> {
    let qubits = 2 + random.below(5);
    blocks_on(random, qubits, number)
}

fn on_many_qubits(random: &mut Random, number: usize) -> Vec<Block> {
    let all = usize::from(QUBITS);
    let qubits = all - random.below(all / 2);
    blocks_on(random, qubits, number)
}

fn on_one_pair(random: &mut Random, number: usize) -> Vec<Block> {
    blocks_on(random, 2, number)
}

/// Each block shares a qubit with the next.
fn chain(random: &mut Random, number: usize) -> Vec<Block> {
    let mut last = random.below(QUBITS.into()) as u8;
    let mut block = || {
        let further = 1 + random.below(usize::from(QUBITS) - 1) as u8;
        let next = (last + further) % QUBITS;
        let block = [last, next];
        last = next;
        block
    };
    (0..number).map(|_| block()).collect()
}

/// In as few layers as there can be; where there is one, no two blocks share a qubit.
fn in_few_layers(random: &mut Random, number: usize) -> Vec<Block> {
    let layers = number.div_ceil(MAX_BLOCKS_PER_LAYER);
    Program::in_layers(random, number, layers).blocks
}
