//! Operators and unitaries of a wanted count, their bytes, gate lists and sheets, bundles, texts, and programs
//! of a wanted number of layers, drawn from a fixed seed. What they are is said by the plain implementation; a
//! text is said here again.

#![forbid(unsafe_code)]

mod bundle;
mod program;
mod random;
mod text;
mod unitary;
mod walk;

pub use bundle::{part, Bundle};
pub use program::{blocks_on, Program, MAX_BLOCKS_PER_LAYER};
pub use random::Random;
pub use text::{Line, Text, FIRST_LINES, STATEMENTS};
pub use unitary::{inflated_unitary, unitary, unitary_bytes, unitary_of_form, MAX_UNITARY_COUNT};
pub use walk::{Walk, LETTERS};

use plain::file::{Kind, MAX_EXPONENT};
use plain::gate;
use plain::generator::GENERATORS;
use plain::matrix::{odd_bits, scale, SIZE};
use plain::operator::Operator;
use plain::sheet::Sheet;

/// How many sheets of each count a store has.
const STORED_PER_COUNT: usize = 16;

/// A Clifford.
pub fn clifford(random: &mut Random) -> Operator {
    let mut columns = [1, 2, 3, 4, 5, 6];
    random.shuffle(&mut columns);
    let mut columns = columns.map(|row| if random.chance(2) { -row } else { row });
    if !gate::clifford(columns).is_proper() {
        columns[0] = -columns[0];
    }
    gate::clifford(columns)
}

/// How many Cliffords send none, one, two and three of the indices 1 to 3 to 4 to 6. There are (3 over m)
/// squared choices of three rows for columns 1 to 3, m of them among 4 to 6, with 6 orders of these columns
/// and 6 of the others, and 32 choices of signs that make the Clifford proper.
pub const CLIFFORDS_BY_CROSSINGS: [usize; 4] = [1152, 10_368, 10_368, 1152];

/// Every Clifford: the rows in every order, with all signs that make it proper.
pub fn cliffords() -> impl Iterator<Item = Operator> {
    let signed = |order: [i64; SIZE]| {
        (0..1 << SIZE).map(move |negated: u32| {
            let sign = |column: usize| if negated >> column & 1 == 1 { -1 } else { 1 };
            gate::clifford(std::array::from_fn(|column| sign(column) * order[column]))
        })
    };
    let all = orders().into_iter().flat_map(signed);
    all.filter(Operator::is_proper)
}

/// The numbers 1 to 6 in every order.
fn orders() -> Vec<[i64; SIZE]> {
    let mut orders = vec![[1, 2, 3, 4, 5, 6]];
    for first in 0..SIZE {
        let swapped = |order: [i64; SIZE]| {
            (first..SIZE).map(move |with| {
                let mut order = order;
                order.swap(first, with);
                order
            })
        };
        orders = orders.into_iter().flat_map(swapped).collect();
    }
    orders
}

/// An operator of the given count, at its least exponent: generators that each raise the exponent,
/// between two Cliffords.
pub fn operator(random: &mut Random, count: u8) -> Operator {
    let mut operator = clifford(random);
    while operator.exponent < count {
        let generator = random.pick(&GENERATORS).operator();
        let longer = operator.times(&generator).reduced();
        if longer.exponent > operator.exponent {
            operator = longer;
        }
    }
    operator.times(&clifford(random))
}

/// An operator of the given count whose L, the number of cuts that group as 2 and 4, is `wanted`, which is
/// below the count, or 0 where that is.
pub fn operator_of_loose(random: &mut Random, count: u8, wanted: u8) -> Operator {
    loop {
        let operator = operator_by_loose(random, count, wanted);
        if Sheet::cut_with_loose(operator).1 == wanted {
            return operator;
        }
    }
}

/// The same, as a rule. The generators go to the left, where cutting begins, and each is to raise L or to
/// leave it; where none of them does as drawn, L comes out otherwise.
fn operator_by_loose(random: &mut Random, count: u8, wanted: u8) -> Operator {
    let mut operator = clifford(random);
    let mut so_far = 0;
    while operator.exponent < count {
        let missing = usize::from(wanted.saturating_sub(so_far));
        let left = usize::from(count - operator.exponent);
        let next = so_far + u8::from(random.below(left) < missing);
        let longer = raised(random, &operator);
        let as_drawn = longer.iter().find(|longer| loose(longer, so_far) == next);
        operator = *as_drawn.unwrap_or(&longer[0]);
        so_far = loose(&operator, so_far);
    }
    operator
}

/// The products with a generator on the left that raises the exponent, in a random order.
fn raised(random: &mut Random, operator: &Operator) -> Vec<Operator> {
    let products = GENERATORS.iter().map(|generator| generator.operator());
    let products = products.map(|generator| generator.times(operator).reduced());
    let mut raised: Vec<_> = products
        .filter(|longer| longer.exponent > operator.exponent)
        .collect();
    random.shuffle(&mut raised);
    raised
}

/// The number of cuts that group as 2 and 4, of a generator times an operator for which it is `before`. A
/// first cut that groups as 2, 2, 2, where every row has an odd entry, takes that generator.
fn loose(longer: &Operator, before: u8) -> u8 {
    let mut odd = longer.matrix.iter().map(odd_bits);
    if odd.all(|bits| bits != 0) {
        return before;
    }
    Sheet::cut_with_loose(*longer).1
}

/// The same operator with an exponent from its own up to the largest of a kind of file, which is at least
/// its own.
pub fn inflated(random: &mut Random, operator: &Operator, kind: Kind) -> Operator {
    let room = usize::from((kind.max_exponent() - operator.exponent) / 2);
    let doublings = random.below(room + 1);
    Operator {
        matrix: scale(&operator.matrix, 1 << doublings),
        exponent: operator.exponent + 2 * doublings as u8,
    }
}

/// The file of an operator, at the exponent it has: a short one where that suffices. Of a kind that is asked
/// for, it is [`Kind::file`].
pub fn file(operator: &Operator) -> Vec<u8> {
    Kind::written(operator.exponent).file(operator)
}

/// The bytes of the sheet that cutting an operator of the given count gives.
pub fn sheet(random: &mut Random, count: u8) -> Vec<u8> {
    let sheet = Sheet::cut(operator(random, count));
    let mut bytes = vec![0; sheet.size()];
    sheet.write(&mut bytes);
    bytes
}

/// So many letters, whatever they multiply to.
pub fn letters(random: &mut Random, len: usize) -> Vec<u8> {
    (0..len).map(|_| *random.pick(&LETTERS)).collect()
}

/// Sheets of every count, for those that draw many.
pub fn store(random: &mut Random) -> Vec<Vec<u8>> {
    let counts = (0..=MAX_EXPONENT).cycle();
    let counts = counts.take(STORED_PER_COUNT * (usize::from(MAX_EXPONENT) + 1));
    counts.map(|count| sheet(random, count)).collect()
}

#[cfg(test)]
mod tests {
    use super::*;
    use plain::sheet::MIN_SHEET;
    use std::collections::HashSet;

    #[test]
    fn operators_have_the_wanted_count() {
        let mut random = Random::new(1);
        for count in 0..=MAX_EXPONENT {
            let operator = operator(&mut random, count);
            assert_eq!(operator.exponent, count);
            assert_eq!(Operator::read(&file(&operator)), Ok(operator));
            assert_eq!(Operator::read(&Kind::Long.file(&operator)), Ok(operator));
            let inflated = inflated(&mut random, &operator, Kind::Long);
            assert_eq!(Operator::read(&file(&inflated)), Ok(operator));
            assert_eq!(Operator::read(&Kind::Long.file(&inflated)), Ok(operator));
            let sheet = sheet(&mut random, count);
            assert_eq!(sheet.len(), usize::from(count) + MIN_SHEET);
        }
    }

    #[test]
    fn every_exponent_comes_up_that_a_kind_allows() {
        let mut random = Random::new(14);
        for kind in Kind::ALL {
            let mut met = vec![false; usize::from(kind.max_exponent()) + 1];
            for _ in 0..20 * met.len() {
                let count = random.below(2) as u8;
                let operator = operator(&mut random, count);
                let inflated = inflated(&mut random, &operator, kind);
                assert_eq!(Operator::read(&kind.file(&inflated)), Ok(operator));
                met[usize::from(inflated.exponent)] = true;
            }
            assert!(met.iter().all(|&met| met), "{kind:?}: {met:?}");
        }
    }

    #[test]
    fn a_file_is_short_where_that_suffices() {
        let mut random = Random::new(15);
        for count in 0..=MAX_EXPONENT {
            let operator = operator(&mut random, count);
            let len = if count <= 28 { 73 } else { 145 };
            assert_eq!(file(&operator).len(), len);
        }
    }

    #[test]
    fn every_clifford_comes_once() {
        let cliffords: HashSet<_> = cliffords().map(|clifford| clifford.matrix).collect();
        assert_eq!(cliffords.len(), 23_040);
        assert_eq!(super::cliffords().count(), cliffords.len());
    }

    #[test]
    fn a_store_has_sheets_of_every_count() {
        let store = store(&mut Random::new(4));
        for len in (0..=MAX_EXPONENT).map(|count| usize::from(count) + MIN_SHEET) {
            let sheets = store.iter().filter(|sheet| sheet.len() == len);
            assert_eq!(sheets.count(), STORED_PER_COUNT);
        }
    }

    #[test]
    fn operators_have_the_wanted_l() {
        let mut random = Random::new(3);
        for count in [1, 2, 3, 7, MAX_EXPONENT] {
            for wanted in [0, 1, count / 2, count - 1] {
                let wanted = wanted.min(count - 1);
                let operator = operator_of_loose(&mut random, count, wanted);
                assert_eq!(operator.exponent, count);
                assert_eq!(Sheet::cut_with_loose(operator).1, wanted);
            }
        }
    }

    #[test]
    fn l_is_told_without_cutting_where_the_first_cut_is_forced() {
        let mut random = Random::new(16);
        for count in 0..20 {
            let operator = operator(&mut random, count);
            let before = Sheet::cut_with_loose(operator).1;
            for longer in raised(&mut random, &operator) {
                assert_eq!(loose(&longer, before), Sheet::cut_with_loose(longer).1);
            }
        }
    }

    #[test]
    fn walks_reach_the_wanted_exponent() {
        let mut random = Random::new(2);
        for exponent in 0..=MAX_EXPONENT + 1 {
            let walk = Walk::reaching(&mut random, exponent);
            assert_eq!(walk.exponent(), exponent);
        }
    }
}
