//! Words: for every Clifford a stretch of letters that multiplies to it or to its negative, and for every
//! two generators the stretch between their letters C. They are built once, by a search over the Clifford
//! letters that takes a Clifford and its negative as one and goes by the number of Z, then by the number
//! of letters. Where indices are sent plays no part in it: that these words have as many Z as document 02,
//! P9, says is for the tests to see.

use std::cmp::Reverse;
use std::collections::{BinaryHeap, HashMap};
use std::sync::OnceLock;

use crate::gate::{CLIFFORD_LETTERS, CS};
use crate::generator::{Generator, GENERATORS, GENERATOR_COUNT};
use crate::matrix::SIZE;
use crate::operator::Operator;
use crate::sheet::{columns, Sheet};
use crate::stretch::product;

/// Stands for the generator before the first one of a list.
const FRONT: u8 = 0;

/// The letters of a stretch for a Clifford, and the sign: 0 if they multiply to it, 1 if to its negative.
#[derive(Clone, Debug, PartialEq, Eq)]
pub struct Word {
    pub letters: Vec<u8>,
    pub sign: u8,
}

/// The words of the Cliffords, found by their column bytes, and what stands around the C of each
/// generator; [`FRONT`] has the first place, and the identity on its right.
pub struct Words {
    cliffords: HashMap<[u8; SIZE], Word>,
    right: [Operator; GENERATOR_COUNT + 1],
    between: [[Word; GENERATOR_COUNT]; GENERATOR_COUNT + 1],
}

impl Words {
    /// The tables, built at the first call.
    pub fn get() -> &'static Words {
        static WORDS: OnceLock<Words> = OnceLock::new();
        WORDS.get_or_init(Words::build)
    }

    /// The word of a Clifford.
    pub fn clifford(&self, clifford: &Operator) -> &Word {
        &self.cliffords[&columns(&clifford.matrix)]
    }

    /// Every Clifford's column bytes with its word.
    pub fn cliffords(&self) -> impl Iterator<Item = (&[u8; SIZE], &Word)> {
        self.cliffords.iter()
    }

    /// The word from the C of a generator, or from the front, to the C of the next.
    fn between(&self, last: u8, next: u8) -> &Word {
        &self.between[usize::from(last)][usize::from(next) - 1]
    }

    /// The word from the C of the last generator, or from the front, to the end.
    fn end(&self, last: u8, rest: &Operator) -> &Word {
        self.clifford(&self.right[usize::from(last)].times(rest))
    }

    fn build() -> Words {
        let (nearest_first, cliffords) = search_cliffords();
        let sides = GENERATORS.each_ref().map(|generator| {
            let mut sides = nearest_first
                .iter()
                .filter_map(|left| split(generator, left));
            sides.next().expect("each is one CS between Cliffords")
        });
        let mut right = [Operator::IDENTITY; GENERATOR_COUNT + 1];
        right[1..].copy_from_slice(&sides.map(|(_, right)| right));
        let between = right.map(|right| {
            sides.map(|(left, _)| cliffords[&columns(&right.times(&left).matrix)].clone())
        });
        Words {
            cliffords,
            right,
            between,
        }
    }
}

/// Writes the gate list of a sheet at the start of `out`; answers the number of its letters, and its sign.
pub fn write_gates(sheet: &Sheet, out: &mut [u8]) -> (usize, u8) {
    let words = Words::get();
    let (mut written, mut sign) = (0, 0);
    let mut write = |letters: &[u8]| {
        out[written..written + letters.len()].copy_from_slice(letters);
        written += letters.len();
    };
    let mut last = FRONT;
    for &next in &sheet.generators {
        let word = words.between(last, next);
        write(&word.letters);
        write(b"C");
        sign ^= word.sign;
        last = next;
    }
    let word = words.end(last, &sheet.rest());
    write(&word.letters);
    (written, sign ^ word.sign)
}

/// One of each two Cliffords that agree up to sign, those with the fewest Z first and of these those with
/// the fewest letters, and the words of all.
fn search_cliffords() -> (Vec<Operator>, HashMap<[u8; SIZE], Word>) {
    let mut found = Vec::new();
    let mut words = HashMap::new();
    let mut waiting = BinaryHeap::from([Reverse((0, 0, vec![]))]);
    while let Some(Reverse((cz_gates, len, letters))) = waiting.pop() {
        let product = product(&letters);
        if words.contains_key(&columns(&product.matrix)) {
            continue;
        }
        for letter in CLIFFORD_LETTERS {
            let longer = [letters.as_slice(), &[letter]].concat();
            let cz_gates = cz_gates + u32::from(letter == b'Z');
            waiting.push(Reverse((cz_gates, len + 1, longer)));
        }
        for (sign, clifford) in (0..).zip([product, product.negative()]) {
            let letters = letters.clone();
            words.insert(columns(&clifford.matrix), Word { letters, sign });
        }
        found.push(product);
    }
    (found, words)
}

/// The Cliffords left and right of the C of a generator, if `left` can be the one.
fn split(generator: &Generator, left: &Operator) -> Option<(Operator, Operator)> {
    let inverse = left.times(&CS).inverse();
    let right = inverse.times(&generator.operator()).reduced();
    (right.exponent == 0).then_some((*left, right))
}

#[cfg(test)]
mod tests {
    use super::*;
    use crate::file::Kind;
    use crate::gate::{image, LETTERS_PER_COUNT};
    use crate::sheet::clifford;
    use crate::stretch::cz_gates;

    /// Every Clifford with its word.
    fn cliffords() -> impl Iterator<Item = (Operator, &'static Word)> {
        let words = Words::get().cliffords();
        words.map(|(columns, word)| (clifford(columns), word))
    }

    /// What the search goes by.
    fn cost(letters: &[u8]) -> (usize, usize) {
        (cz_gates(letters), letters.len())
    }

    #[test]
    fn every_clifford_word_multiplies_to_its_clifford_as_its_sign_says() {
        assert_eq!(cliffords().count(), 23_040);
        for (clifford, word) in cliffords() {
            assert!(clifford.is_proper());
            assert!(word.letters.iter().all(|l| CLIFFORD_LETTERS.contains(l)));
            assert_eq!(product(&word.letters), clifford.with_sign(word.sign));
        }
    }

    #[test]
    fn a_clifford_and_its_negative_have_the_same_letters() {
        for (clifford, word) in cliffords() {
            let negative = Word {
                letters: word.letters.clone(),
                sign: 1 - word.sign,
            };
            assert_eq!(*Words::get().clifford(&clifford.negative()), negative);
        }
    }

    /// So no letters, however many, cost less than the word of their product.
    #[test]
    fn a_letter_more_leads_to_no_word_that_costs_less() {
        assert_eq!(Words::get().clifford(&Operator::IDENTITY).letters, b"");
        for (clifford, word) in cliffords() {
            for letter in CLIFFORD_LETTERS {
                let next = clifford.times(image(letter).unwrap());
                let longer = [word.letters.as_slice(), &[letter]].concat();
                let next = Words::get().clifford(&next);
                assert!(cost(&next.letters) <= cost(&longer));
            }
        }
    }

    #[test]
    fn every_generator_is_one_c_between_its_words() {
        for (number, generator) in (1..).zip(&GENERATORS) {
            let left = Words::get().between(FRONT, number);
            let right = Words::get().end(number, &Operator::IDENTITY);
            let list = [&left.letters, b"C".as_slice(), &right.letters].concat();
            let said = generator.operator().with_sign(left.sign ^ right.sign);
            assert_eq!(product(&list), said);
        }
    }

    #[test]
    fn a_stretch_joins_the_right_of_one_c_to_the_left_of_the_next() {
        for (last, first) in (1..).zip(&GENERATORS) {
            for (next, second) in (1..).zip(&GENERATORS) {
                let words = Words::get();
                let stretches = [
                    words.between(FRONT, last),
                    words.between(last, next),
                    words.end(next, &Operator::IDENTITY),
                ];
                let list = stretches.map(|word| word.letters.as_slice()).join(&b'C');
                let sign = stretches.iter().fold(0, |sign, word| sign ^ word.sign);
                let both = first.operator().times(&second.operator());
                assert_eq!(product(&list), both.with_sign(sign));
            }
        }
    }

    #[test]
    fn no_word_is_longer_than_its_share() {
        let longest = cliffords().map(|(_, word)| word.letters.len()).max();
        assert!(longest.is_some_and(|longest| longest < LETTERS_PER_COUNT));
    }

    #[test]
    fn the_letters_past_the_list_are_kept() {
        let file = Kind::Short.file(&Operator::IDENTITY);
        let mut out = [7; 300];
        let none = crate::Letters {
            count: 0,
            letters: 0,
            loose: 0,
            sign: 0,
        };
        assert_eq!(crate::operator_to_gates(&file, &mut out), Ok(none));
        assert_eq!(out, [7; 300]);
    }
}
