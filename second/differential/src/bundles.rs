//! Bundles: of every number of sheets and with parts of every length, and ones damaged in every way
//! that document 02 turns away; sheets end to end, bundled and found again.

mod damages;

use plain::bundle::{MAX_PART, MAX_SHEETS};
use plain::sheet::MIN_SHEET;
use samples::{part, Bundle, Random};

use crate::call::{question, Answer, Call};
use crate::judge::Judge;
use crate::trials::expect;

use damages::{BYTE_DAMAGES, LIST_DAMAGES, PIECE_DAMAGES};

const BUNDLES: usize = 30_000;
const FAR_BUNDLES: usize = 500;
const BUNDLES_PER_LENGTH: usize = 20;
const LISTS: usize = 15_000;
const OVERFULL_LISTS: usize = 800;

/// A bundle of up to this many sheets, or a full one, is asked for all; another for about this many.
const FEW: usize = 20;

/// Numbers of sheets around those that fill a byte or a bundle, and one far above.
const EDGES: [usize; 8] = [255, 256, 257, 511, 512, 513, 514, 600];

/// Numbers whose low parts look allowed.
const FAR: [u64; 8] = [
    1 << 8,
    1 << 9,
    1 << 16,
    1 << 24,
    1 << 32,
    1 << 48,
    1 << 63,
    u64::MAX - 1,
];

/// Offsets around the largest that 16 bits hold.
const FAR_OFFSETS: [usize; 7] = [65_527, 65_534, 65_535, 65_536, 65_537, 65_544, 75_000];

/// Runs the calls that read and write bundles.
pub fn run(judge: &mut Judge) {
    let mut random = Random::new(8);
    let store = samples::store(&mut random);
    for _ in 0..BUNDLES {
        read(judge, &mut random, &store);
    }
    for _ in 0..FAR_BUNDLES {
        read_far(judge, &mut random);
    }
    for length in MIN_SHEET..=MAX_PART {
        for _ in 0..BUNDLES_PER_LENGTH {
            find(judge, &mut random, &store, length);
        }
    }
    for _ in 0..LISTS {
        write(judge, &mut random, &store);
    }
    for number in 0..=MAX_SHEETS {
        there_and_back(judge, &mut random, &store, number);
    }
    for _ in 0..OVERFULL_LISTS {
        let number = MAX_SHEETS + 1 + random.below(FEW);
        let sheets = drawn(&mut random, &store, number);
        judge.run(Call::SheetsToBundle, &sheets.concat());
    }
}

/// Asks a bundle, and then what damages leave of it.
fn read(judge: &mut Judge, random: &mut Random, store: &[Vec<u8>]) {
    let number = number_of_sheets(random);
    let mut bundle = if random.chance(3) {
        Bundle::of((0..number).map(|_| any_part(random)).collect())
    } else {
        Bundle::of(drawn(random, store, number))
    };
    ask(judge, random, number, &bundle.bytes());
    let [of_pieces, of_bytes] = mixture(random);
    for _ in 0..of_pieces {
        random.pick(&PIECE_DAMAGES)(random, &mut bundle);
    }
    let mut bytes = bundle.bytes();
    for _ in 0..of_bytes {
        random.pick(&BYTE_DAMAGES)(random, &mut bytes);
    }
    ask(judge, random, number, &bytes);
}

/// How many damages a bundle has: of its pieces, of its bytes.
fn mixture(random: &mut Random) -> [usize; 2] {
    match random.below(8) {
        0..=3 => [1, 0],
        4 | 5 => [2, 0],
        6 => [0, 1],
        _ => [1, 1],
    }
}

/// Asks a bundle whose last offset is about as large as one can be, or larger.
fn read_far(judge: &mut Judge, random: &mut Random) {
    let last = *random.pick(&FAR_OFFSETS);
    let bundle = reaching(random, last);
    let number = bundle.sheets.len();
    let bytes = bundle.bytes();
    ask(judge, random, number, &bytes);
    let last = number as u64 - 1;
    judge.run(Call::BundleSheet, &question(last, &bytes));
}

/// Finds a part of the given length where it was put.
fn find(judge: &mut Judge, random: &mut Random, store: &[Vec<u8>], length: usize) {
    let others = random.below(4);
    let mut sheets = drawn(random, store, others);
    let n = random.below(others + 1);
    sheets.insert(n, part(random, length));
    expect_part(judge, &Bundle::of(sheets), n);
}

/// Bundles sheets, and then what damages leave of them.
fn write(judge: &mut Judge, random: &mut Random, store: &[Vec<u8>]) {
    let number = number_of_sheets(random);
    let mut sheets = drawn(random, store, number);
    judge.run(Call::SheetsToBundle, &sheets.concat());
    let times = if random.chance(4) { 2 } else { 1 };
    for _ in 0..times {
        random.pick(&LIST_DAMAGES)(random, &mut sheets);
    }
    judge.run(Call::SheetsToBundle, &sheets.concat());
}

/// Bundles sheets and finds them again.
fn there_and_back(judge: &mut Judge, random: &mut Random, store: &[Vec<u8>], number: usize) {
    let bundle = Bundle::of(drawn(random, store, number));
    let sheets = bundle.sheets.concat();
    let bytes = bundle.bytes();
    let answer = Answer::Written(bytes.len());
    expect(judge, Call::SheetsToBundle, &sheets, answer, &bytes);
    for n in 0..number {
        let is_outermost = n == 0 || n == number - 1;
        if is_outermost || number == MAX_SHEETS || random.below(number) < FEW {
            expect_part(judge, &bundle, n);
        }
    }
    ask(judge, random, number, &bytes);
}

/// Ends the program unless sheet n of an undamaged bundle is found where it stands.
fn expect_part(judge: &mut Judge, bundle: &Bundle, n: usize) {
    let answer = Answer::Part {
        place: bundle.offsets[n].into(),
        length: bundle.sheets[n].len(),
    };
    let question = question(n as u64, &bundle.bytes());
    expect(judge, Call::BundleSheet, &question, answer, &[]);
}

/// Asks for one of so many sheets, or for one that is not there.
fn ask(judge: &mut Judge, random: &mut Random, number: usize, bundle: &[u8]) {
    let n = asked_for(random, number as u64);
    judge.run(Call::BundleSheet, &question(n, bundle));
}

/// The first, the last or any one of so many, the one after them, one far away, or one of any size.
fn asked_for(random: &mut Random, number: u64) -> u64 {
    match random.below(8) {
        0 => 0,
        1 => number.saturating_sub(1),
        2..=4 => random.number() % number.max(1),
        5 => number,
        6 => {
            let near = random.number() % (number + 2);
            random.pick(&FAR).saturating_add(near)
        }
        _ => random.number() >> random.below(64),
    }
}

/// Few, as a rule.
fn number_of_sheets(random: &mut Random) -> usize {
    match random.below(16) {
        0..=10 => random.below(6),
        11..=14 => random.below(60),
        _ => *random.pick(&EDGES),
    }
}

/// So many sheets out of the store.
fn drawn(random: &mut Random, store: &[Vec<u8>], number: usize) -> Vec<Vec<u8>> {
    (0..number).map(|_| random.pick(store).clone()).collect()
}

/// A part of any length that a first byte can say; the ends of their range are frequent.
fn any_part(random: &mut Random) -> Vec<u8> {
    let length = match random.below(8) {
        0 => MIN_SHEET,
        1 => MAX_PART,
        _ => MIN_SHEET + random.below(MAX_PART - MIN_SHEET + 1),
    };
    part(random, length)
}

/// Long parts, the last of them at the given offset.
fn reaching(random: &mut Random, offset: usize) -> Bundle {
    let mut parts = Vec::new();
    let mut left = offset;
    while left > 0 {
        let length = match left {
            ..=MAX_PART => left,
            _ if left <= 2 * MAX_PART => left / 2,
            _ => MAX_PART - random.below(MAX_PART / 4),
        };
        parts.push(part(random, length));
        left -= length;
    }
    parts.push(any_part(random));
    Bundle::of(parts)
}
