//! Gate lists for the two calls that read them: of every count, at and around the limits of length and
//! depth, with unknown bytes before, at and after the place where a beginning grows too deep.

use plain::file::MAX_EXPONENT;
use plain::gate::{image, CLIFFORD_LETTERS, MAX_LETTERS};
use samples::{Random, Walk, LETTERS};

use crate::call::Call;
use crate::judge::Judge;

const SHORT_LISTS: usize = 40_000;
const LONG_LISTS: usize = 500;
const OVERLONG_LISTS: usize = 2_500;

/// Of so many long lists one is written as text.
const LONG_LISTS_PER_TEXT: usize = 8;

/// Bytes beside the letters, in value or in looks.
const NEAR_LETTERS: [u8; 20] = *b"BDGIRTYXcz[girt\n \0\x80\xff";

/// Makers of lists of up to a few hundred letters.
const SHORT: [fn(&mut Random) -> Vec<u8>; 9] = [
    few_letters,
    few_letters_with_unknown,
    of_any_count,
    of_any_count_with_unknown,
    deepest_and_on,
    too_deep,
    too_deep_and_back,
    unknown_around_too_deep,
    any_bytes,
];

/// Makers of lists of thousands of letters.
const LONG: [fn(&mut Random) -> Vec<u8>; 3] = [long_cliffords, there_and_back, long_then_too_deep];

/// Runs both calls that read gate lists.
pub fn run(judge: &mut Judge) {
    let mut random = Random::new(3);
    for _ in 0..SHORT_LISTS {
        let list = random.pick(&SHORT)(&mut random);
        multiply_and_write(judge, &list);
    }
    for number in 0..LONG_LISTS {
        let list = random.pick(&LONG)(&mut random);
        judge.run(Call::GatesToOperator, &list);
        if number % LONG_LISTS_PER_TEXT == 0 {
            judge.run(Call::GatesToQasm, &list);
        }
    }
    for _ in 0..OVERLONG_LISTS {
        multiply_and_write(judge, &overlong(&mut random));
    }
}

fn multiply_and_write(judge: &mut Judge, list: &[u8]) {
    judge.run(Call::GatesToOperator, list);
    judge.run(Call::GatesToQasm, list);
}

fn few_letters(random: &mut Random) -> Vec<u8> {
    let len = random.below(40);
    samples::letters(random, len)
}

fn few_letters_with_unknown(random: &mut Random) -> Vec<u8> {
    let mut list = few_letters(random);
    insert_unknown(random, &mut list);
    list
}

fn of_any_count(random: &mut Random) -> Vec<u8> {
    let count = random.below(usize::from(MAX_EXPONENT) + 1) as u8;
    let mut walk = Walk::reaching(random, count);
    let more = random.below(9);
    walk.push_cliffords(random, more);
    walk.letters
}

fn of_any_count_with_unknown(random: &mut Random) -> Vec<u8> {
    let mut list = of_any_count(random);
    insert_unknown(random, &mut list);
    list
}

/// Stays at the largest exponent that is allowed, or goes down from it.
fn deepest_and_on(random: &mut Random) -> Vec<u8> {
    let mut walk = Walk::reaching(random, MAX_EXPONENT);
    for _ in 0..random.below(30) {
        let mut longer = walk.clone();
        longer.push(*random.pick(&LETTERS));
        if longer.exponent() <= MAX_EXPONENT {
            walk = longer;
        }
    }
    walk.letters
}

fn too_deep(random: &mut Random) -> Vec<u8> {
    let mut list = Walk::reaching(random, MAX_EXPONENT + 1).letters;
    list.extend(few_letters(random));
    list
}

/// The product of the whole list is not too deep; that of a beginning is.
fn too_deep_and_back(random: &mut Random) -> Vec<u8> {
    let mut list = Walk::reaching(random, MAX_EXPONENT + 1).letters;
    list.extend_from_slice(b"CCCCCCC");
    list
}

/// An unknown byte before, at, or after the letter that makes the beginning too deep.
fn unknown_around_too_deep(random: &mut Random) -> Vec<u8> {
    let mut list = Walk::reaching(random, MAX_EXPONENT + 1).letters;
    let place = list.len() - 1;
    list.extend(few_letters(random));
    let unknown = unknown_byte(random);
    match random.below(4) {
        0 => list[random.below(place)] = unknown,
        1 => list[place] = unknown,
        2 => list.insert(place, unknown),
        _ => list.insert(place + 1 + random.below(list.len() - place), unknown),
    }
    list
}

fn any_bytes(random: &mut Random) -> Vec<u8> {
    let len = random.below(20);
    random.bytes(len)
}

/// Clifford letters up to the limit of length, with a few C and sometimes an unknown byte.
fn long_cliffords(random: &mut Random) -> Vec<u8> {
    let len = MAX_LETTERS - random.below(3);
    let mut list: Vec<u8> = (0..len).map(|_| *random.pick(&CLIFFORD_LETTERS)).collect();
    for _ in 0..random.below(32) {
        list[random.below(len)] = b'C';
    }
    if random.chance(4) {
        let last = len - 1;
        list[last - random.below(3)] = unknown_byte(random);
    }
    list
}

/// Goes to an exponent and undoes all letters, again and again.
fn there_and_back(random: &mut Random) -> Vec<u8> {
    let mut list = Vec::new();
    while list.len() < MAX_LETTERS {
        let count = 1 + random.below(usize::from(MAX_EXPONENT)) as u8;
        let walk = Walk::reaching(random, count);
        list.extend_from_slice(&walk.letters);
        list.extend(walk.undoing());
    }
    list.truncate(MAX_LETTERS - random.below(2));
    list
}

/// Goes too deep near the end of a list of the largest length.
fn long_then_too_deep(random: &mut Random) -> Vec<u8> {
    let deep = Walk::reaching(random, MAX_EXPONENT + 1).letters;
    let len = MAX_LETTERS - random.below(2);
    let mut list = vec![b'S'; len - deep.len() - random.below(10)];
    list.extend(deep);
    list.resize(len, b'h');
    list
}

/// More letters than a list may have, unknown bytes and depths included.
fn overlong(random: &mut Random) -> Vec<u8> {
    let more = *random.pick(&[1, 1, 2, 9000]);
    let len = MAX_LETTERS + more;
    match random.below(3) {
        0 => vec![*random.pick(&LETTERS); len],
        1 => random.bytes(len),
        _ => b"CHSCshZ".iter().copied().cycle().take(len).collect(),
    }
}

fn insert_unknown(random: &mut Random, list: &mut Vec<u8>) {
    let at = random.below(list.len() + 1);
    list.insert(at, unknown_byte(random));
}

fn unknown_byte(random: &mut Random) -> u8 {
    loop {
        let byte = if random.chance(2) {
            *random.pick(&NEAR_LETTERS)
        } else {
            random.byte()
        };
        if image(byte).is_none() {
            return byte;
        }
    }
}
