//! Document 02, P13: the layers of programs, and that no valid layering of a small one has fewer or puts any
//! block earlier.

use plain::blocks_to_layers;

/// A block, by its two qubits.
type Block = [u8; 2];

/// What an untouched byte of an output buffer holds.
const UNTOUCHED: u8 = 0xA5;

/// The most blocks of a program.
const FULL: usize = 64;

/// How many blocks and qubits the programs have whose layerings are all looked at.
const SEARCHED: [(usize, u8); 9] = [
    (0, 2),
    (1, 6),
    (2, 6),
    (3, 6),
    (4, 2),
    (4, 3),
    (4, 4),
    (5, 2),
    (5, 3),
];

/// The program has these layers, so many of them, and the bytes past them are kept; with one byte less there
/// is no room.
fn assert_layers(program: &[u8], layers: &[u8], number: u8) {
    for more in [0, 1, 100] {
        let mut out = vec![UNTOUCHED; layers.len() + more];
        assert_eq!(blocks_to_layers(program, &mut out), Ok(number));
        assert_eq!(out[..layers.len()], *layers);
        assert_eq!(out[layers.len()..], vec![UNTOUCHED; more]);
    }
    if !layers.is_empty() {
        assert_not_written(program, 6, layers.len() - 1);
        assert_not_written(program, 6, 0);
    }
}

/// The program is refused, and no byte is written.
fn assert_not_written(program: &[u8], refusal: u8, out_len: usize) {
    let mut out = vec![UNTOUCHED; out_len];
    assert_eq!(blocks_to_layers(program, &mut out), Err(refusal));
    assert!(out.iter().all(|&byte| byte == UNTOUCHED));
}

/// The same, whether or not the buffer has room.
fn assert_refused(program: &[u8], refusal: u8) {
    assert_not_written(program, refusal, 0);
    assert_not_written(program, refusal, 1000);
}

/// As many blocks, each of which shares its second qubit with the next.
fn chain(blocks: u8) -> Vec<u8> {
    (0..blocks).flat_map(|n| [n % 32, (n + 1) % 32]).collect()
}

/// The program with another byte at a place.
fn with(program: &[u8], place: usize, byte: u8) -> Vec<u8> {
    let mut program = program.to_vec();
    program[place] = byte;
    program
}

#[test]
fn no_blocks() {
    assert_layers(&[], &[], 0);
}

#[test]
fn one_block() {
    for first in 0..32 {
        for second in (0..32).filter(|&second| second != first) {
            assert_layers(&[first, second], &[0], 1);
        }
    }
}

#[test]
fn blocks_on_one_pair_of_qubits() {
    let layers: Vec<u8> = (0..64).collect();
    for number in 1..=64 {
        let layers = &layers[..number.into()];
        assert_layers(&[0, 1].repeat(number.into()), layers, number);
        assert_layers(&[31, 30].repeat(number.into()), layers, number);
    }
}

#[test]
fn a_chain() {
    let layers: Vec<u8> = (0..64).collect();
    for number in 1..=64 {
        let program = chain(number);
        assert_layers(&program, &layers[..number.into()], number);
    }
    assert_layers(&[0, 1, 1, 2, 2, 3, 3, 4], &[0, 1, 2, 3], 4);
    // From its other end, and from both ends to the middle.
    assert_layers(&[3, 4, 2, 3, 1, 2, 0, 1], &[0, 1, 2, 3], 4);
    assert_layers(&[0, 1, 3, 4, 1, 2, 2, 3], &[0, 0, 1, 2], 3);
    // Every other block first.
    assert_layers(&[0, 1, 2, 3, 1, 2, 3, 4], &[0, 0, 1, 1], 2);
}

#[test]
fn blocks_that_share_nothing() {
    let program: Vec<u8> = (0..32).collect();
    assert_layers(&program, &[0; 16], 1);
    let reversed: Vec<u8> = (0..32).rev().collect();
    assert_layers(&reversed, &[0; 16], 1);
    // Four times over: a layer each.
    let layers: Vec<u8> = (0..64).map(|n| n / 16).collect();
    assert_layers(&program.repeat(4), &layers, 4);
}

#[test]
fn blocks_that_share_either_qubit() {
    for block in [[0, 2], [2, 0], [1, 2], [2, 1], [0, 1], [1, 0]] {
        assert_layers(&[[0, 1], block].concat(), &[0, 1], 2);
    }
    // One above the highest of those that it shares a qubit with, whichever qubit that is.
    assert_layers(&[0, 1, 0, 2, 3, 4, 2, 3], &[0, 1, 0, 2], 3);
    assert_layers(&[0, 1, 0, 2, 3, 4, 3, 2], &[0, 1, 0, 2], 3);
    assert_layers(&[0, 1, 0, 2, 3, 4, 3, 5], &[0, 1, 0, 1], 2);
    // A late block in the first layer, and the highest layer before the last block.
    assert_layers(&[0, 1, 0, 1, 0, 1, 2, 3], &[0, 1, 2, 0], 3);
}

#[test]
fn an_odd_number_of_bytes() {
    for number in 0..=FULL {
        let program = [0, 1].repeat(number);
        for last in [0, 1, 31, 32, 255] {
            assert_refused(&[&program[..], &[last]].concat(), 24);
        }
    }
}

#[test]
fn more_than_64_blocks() {
    for number in [65, 66, 127, 128, 129, 192, 256, 257, 320, 32_768, 32_800] {
        assert_refused(&[0, 1].repeat(number), 24);
    }
}

#[test]
fn a_qubit_above_31() {
    let program = chain(64);
    for place in 0..program.len() {
        assert_refused(&with(&program, place, 32), 25);
        assert_refused(&with(&program, place, 255), 25);
    }
    for qubit in 32..=255 {
        assert_refused(&[qubit, 0], 25);
        assert_refused(&[0, qubit], 25);
        assert_refused(&[qubit, qubit], 25);
    }
}

#[test]
fn a_block_that_names_one_qubit_twice() {
    let program = chain(64);
    for place in (0..program.len()).step_by(2) {
        assert_refused(&with(&program, place, program[place + 1]), 25);
        assert_refused(&with(&program, place + 1, program[place]), 25);
    }
    for qubit in 0..32 {
        assert_refused(&[qubit, qubit], 25);
    }
    // Two blocks that name one qubit do not.
    assert_layers(&[5, 6, 6, 5], &[0, 1], 2);
}

#[test]
fn the_first_refusal_is_answered() {
    // 24 before 25: an odd number of bytes, or a block too many, with a wrong block before, at and behind.
    assert_refused(&[5, 5, 0], 24);
    assert_refused(&[0, 1, 32], 24);
    for place in [0, 126, 128] {
        assert_refused(&with(&[0, 1].repeat(65), place, 32), 24);
        assert_refused(&with(&[0, 1].repeat(65), place, 1), 24);
    }
    // 24 before 6.
    assert_not_written(&[0, 1, 0], 24, 0);
    assert_not_written(&[0, 1].repeat(65), 24, 64);
    // 25 before 6.
    assert_not_written(&[5, 5], 25, 0);
    assert_not_written(&[0, 1, 0, 32], 25, 1);
    // All three.
    assert_not_written(&[5, 5, 0], 24, 0);
    assert_not_written(&[32, 0].repeat(65), 24, 0);
}

/// All programs of so many blocks on so many qubits.
fn programs(blocks: usize, qubits: u8) -> Vec<Vec<Block>> {
    let pairs = (0..qubits).flat_map(|first| (0..qubits).map(move |second| [first, second]));
    let pairs: Vec<Block> = pairs.filter(|[first, second]| first != second).collect();
    sequences(blocks, &pairs)
}

/// All layerings of so many blocks, valid or not, in one layer more than they can need.
fn layerings(blocks: usize) -> Vec<Vec<u8>> {
    let layers: Vec<u8> = (0..=blocks as u8).collect();
    sequences(blocks, &layers)
}

/// All sequences of so many items.
fn sequences<T: Copy>(len: usize, items: &[T]) -> Vec<Vec<T>> {
    let longer = |sequence: Vec<T>| {
        let items = items.iter();
        items.map(move |&item| [&sequence[..], &[item]].concat())
    };
    let mut sequences = vec![vec![]];
    for _ in 0..len {
        sequences = sequences.into_iter().flat_map(longer).collect();
    }
    sequences
}

/// Of two blocks that share a qubit the later one has the higher layer.
fn is_valid(blocks: &[Block], layers: &[u8]) -> bool {
    let keep_order = |earlier: usize, later: usize| {
        let [first, second] = &blocks[earlier];
        let share = blocks[later].contains(first) || blocks[later].contains(second);
        !share || layers[earlier] < layers[later]
    };
    (0..blocks.len()).all(|later| (0..later).all(|earlier| keep_order(earlier, later)))
}

/// How many layers have a block.
fn used(layers: &[u8]) -> usize {
    let mut used = layers.to_vec();
    used.sort_unstable();
    used.dedup();
    used.len()
}

/// No block is later than in another layering, and no more layers have one.
fn is_least(layers: &[u8], other: &[u8]) -> bool {
    let mut blocks = layers.iter().zip(other);
    blocks.all(|(layer, other)| layer <= other) && used(layers) <= used(other)
}

#[test]
fn no_valid_layering_has_fewer_layers_or_puts_a_block_earlier() {
    for (number, qubits) in SEARCHED {
        let layerings = layerings(number);
        for blocks in programs(number, qubits) {
            let mut layers = vec![UNTOUCHED; number];
            let answer = blocks_to_layers(&blocks.concat(), &mut layers);
            assert!(is_valid(&blocks, &layers), "{blocks:?}: {layers:?}");
            assert_eq!(answer, Ok(used(&layers) as u8), "{blocks:?}");
            for other in layerings.iter().filter(|other| is_valid(&blocks, other)) {
                assert!(is_least(&layers, other), "{blocks:?}: {layers:?} {other:?}");
            }
        }
    }
}
