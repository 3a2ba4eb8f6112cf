//! Known unitaries: every power of ω alone, every letter, small products, and the borders of the refusals.

use plain::gate::LETTERS_PER_COUNT;
use plain::unitary::{MAX_EXPONENT, SIZE, UNITARY_BYTES};

use super::damages::WITHOUT_CONJUGATES;
use crate::call::{Answer, Call};
use crate::judge::Judge;
use crate::trials::{expect, same};

/// The rows of a matrix, each entry as its real and its imaginary part.
type Rows = [[(i64, i64); SIZE]; SIZE];

/// The powers of ω from 0 up: an exponent and the entry all along the diagonal.
const POWERS: [(u8, (i64, i64)); 8] = [
    (0, (1, 0)),
    (1, (1, 1)),
    (0, (0, 1)),
    (1, (-1, 1)),
    (0, (-1, 0)),
    (1, (-1, -1)),
    (0, (0, -1)),
    (1, (1, -1)),
];

const N: (i64, i64) = (0, 0);
const P: (i64, i64) = (1, 0);
const M: (i64, i64) = (-1, 0);
const I: (i64, i64) = (0, 1);

const H_FIRST: Rows = [[P, N, P, N], [N, P, N, P], [P, N, M, N], [N, P, N, M]];
const H_SECOND: Rows = [[P, P, N, N], [P, M, N, N], [N, N, P, P], [N, N, P, M]];
const S_FIRST: Rows = [[P, N, N, N], [N, P, N, N], [N, N, I, N], [N, N, N, I]];
const S_SECOND: Rows = [[P, N, N, N], [N, I, N, N], [N, N, P, N], [N, N, N, I]];
const CZ: Rows = [[P, N, N, N], [N, P, N, N], [N, N, P, N], [N, N, N, M]];
const CS: Rows = [[P, N, N, N], [N, P, N, N], [N, N, P, N], [N, N, N, I]];
const SWAP: Rows = [[P, N, N, N], [N, N, P, N], [N, P, N, N], [N, N, N, P]];
const CHC: Rows = [[P, N, P, N], [N, P, N, I], [P, N, M, N], [N, I, N, P]];

/// An exponent and rows, the count and L.
const ACCEPTED: [(u8, Rows, u64, u8); 8] = [
    (1, H_FIRST, 0, 0),
    (1, H_SECOND, 0, 0),
    (0, S_FIRST, 0, 0),
    (0, S_SECOND, 0, 0),
    (0, CZ, 0, 0),
    (0, CS, 1, 0),
    (0, SWAP, 0, 0),
    (1, CHC, 2, 1),
];

/// Runs the call on the known unitaries.
pub fn run(judge: &mut Judge) {
    powers(judge);
    for (exponent, rows, count, loose) in ACCEPTED {
        for doublings in 0..=(MAX_EXPONENT - exponent) / 2 {
            let rows = rows.map(|row| row.map(|entry| times(entry, 1 << doublings)));
            accepted(judge, &bytes(exponent + 2 * doublings, rows), count, loose);
        }
    }
    for (bytes, number) in refused() {
        let answer = Answer::Refused(number);
        expect(judge, Call::UnitaryToGates, &bytes, answer, &[]);
    }
}

/// A power of ω alone has no letters.
fn powers(judge: &mut Judge) {
    for (omega, (exponent, entry)) in (0..).zip(POWERS) {
        for doublings in 0..=(MAX_EXPONENT - exponent) / 2 {
            let exponent = exponent + 2 * doublings;
            let unitary = diagonal(exponent, times(entry, 1 << doublings));
            let empty = Answer::Unitary {
                count: 0,
                letters: 0,
                loose: 0,
                omega,
            };
            let written = judge.run_with(Call::UnitaryToGates, &unitary, LETTERS_PER_COUNT);
            same(Call::UnitaryToGates, &unitary, &written, &(empty, vec![]));
        }
    }
}

/// The unitary has this count and this L, with a buffer that is exactly long enough, and is refused with one
/// byte less.
fn accepted(judge: &mut Judge, unitary: &[u8], count: u64, loose: u8) {
    let call = Call::UnitaryToGates;
    let needed = LETTERS_PER_COUNT * (count as usize + 1);
    let (written, _) = judge.run_with(call, unitary, needed);
    let settled = Answer::Unitary {
        count,
        letters: 0,
        loose,
        omega: 0,
    };
    same(call, unitary, &written.without_letters(), &settled);
    let (refused, _) = judge.run_with(call, unitary, needed - 1);
    same(call, unitary, &refused, &Answer::Refused(6));
}

/// Unitaries and the refusals that they earn.
fn refused() -> Vec<(Vec<u8>, u8)> {
    let identity = diagonal(0, P);
    let mut large = identity.clone();
    large[UNITARY_BYTES - 1] = 128;
    let mut refused = vec![
        (vec![], 17),
        (identity[..64].to_vec(), 17),
        ([&identity[..], &[0]].concat(), 17),
        (diagonal(30, (32_767, 0)), 17),
        (diagonal(30, (16_384, 16_384)), 17),
        (diagonal(31, (16_384, 16_384)), 17),
        (diagonal(255, N), 17),
        (large, 18),
        (diagonal(0, (1, 1)), 18),
        (diagonal(12, (64, 1)), 18),
        (diagonal(28, (16_384, 1)), 18),
        (diagonal(29, (16_385, 16_384)), 18),
        (diagonal(29, (16_384, -16_385)), 18),
        (diagonal(29, (-23_171, 0)), 18),
        (diagonal(29, (-32_768, 0)), 18),
        (diagonal(29, (0, 23_170)), 19),
        (diagonal(29, (16_384, 16_383)), 19),
        (diagonal(1, P), 19),
        (diagonal(0, N), 19),
    ];
    for doublings in 0..=MAX_EXPONENT / 2 {
        let factor = 1 << doublings;
        let rows = WITHOUT_CONJUGATES.map(|row| row.map(|entry| times(entry, factor)));
        refused.push((bytes(2 * doublings, rows), 19));
    }
    refused
}

fn times((re, im): (i64, i64), factor: i64) -> (i64, i64) {
    (factor * re, factor * im)
}

fn diagonal(exponent: u8, entry: (i64, i64)) -> Vec<u8> {
    let row = |row| std::array::from_fn(|column| if row == column { entry } else { N });
    bytes(exponent, std::array::from_fn(row))
}

fn bytes(exponent: u8, rows: Rows) -> Vec<u8> {
    let parts = rows.into_iter().flatten().flat_map(|(re, im)| [re, im]);
    let parts = parts.flat_map(|part| (part as i16).to_le_bytes());
    [exponent].into_iter().chain(parts).collect()
}
