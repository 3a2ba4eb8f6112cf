//! Unitaries of a wanted count, and their bytes.

use plain::gate::{CLIFFORD_LETTERS, LETTERS_PER_COUNT};
use plain::omega::{Number, POWERS};
use plain::operator::Operator;
use plain::sheet::Sheet;
use plain::stretch;
use plain::unitary::{scale, Unitary, MAX_EXPONENT, UNITARY_BYTES};
use plain::words::write_gates;

use crate::Random;

/// The largest count that unitaries are drawn of: [`unitary`] lets the exponent rise by one for every two
/// letters C, and always found letters that keep to that. That a larger count could be accepted is not ruled
/// out here; none was found.
pub const MAX_UNITARY_COUNT: u8 = 2 * MAX_EXPONENT;

/// A unitary and its six-by-six form, up to sign.
#[derive(Clone, Copy)]
struct Pair {
    unitary: Unitary,
    form: Operator,
}

/// A unitary of the given count, at the least exponent for which its entries are Gaussian integers; that is
/// at most `most`, which is at least half of the count.
pub fn unitary(random: &mut Random, count: u8, most: u8) -> Unitary {
    let room = most - count.div_ceil(2);
    let identity = Pair {
        unitary: Unitary::IDENTITY,
        form: Operator::IDENTITY,
    };
    let mut pair = next(random, &identity, b"", room);
    for count in 1..=count {
        pair = next(random, &pair, b"C", count.div_ceil(2) + room);
    }
    let pair = next(random, &pair, b"", most);
    turned(random, &pair.unitary, most).expect("an exponent that is small enough")
}

/// A unitary with the given form up to sign, at the least exponent for which its entries are Gaussian
/// integers; none if that is above the largest.
pub fn unitary_of_form(random: &mut Random, form: &Operator) -> Option<Unitary> {
    let mut list = vec![0; LETTERS_PER_COUNT * (usize::from(form.exponent) + 1)];
    let (letters, _) = write_gates(&Sheet::cut(*form), &mut list);
    turned(random, &Unitary::product(&list[..letters]), MAX_EXPONENT)
}

/// The unitary times a random one of those powers of ω with which its exponent, with Gaussian integers, is
/// at most `most`; none if there are none.
fn turned(random: &mut Random, unitary: &Unitary, most: u8) -> Option<Unitary> {
    let turned = (0..POWERS).map(|power| unitary.times_omega(power).gaussian());
    let fitting: Vec<_> = turned.filter(|turned| turned.exponent <= most).collect();
    (!fitting.is_empty()).then(|| *random.pick(&fitting))
}

/// The pair times random Clifford letters and an ending, where the count rises by one for each letter C, and
/// the exponent is at most `most`.
fn next(random: &mut Random, pair: &Pair, ending: &[u8], most: u8) -> Pair {
    loop {
        let cliffords = random.below(8);
        let mut letters: Vec<u8> = (0..cliffords)
            .map(|_| *random.pick(&CLIFFORD_LETTERS))
            .collect();
        letters.extend(ending);
        let next = Pair {
            unitary: pair.unitary.times(&Unitary::product(&letters)).reduced(),
            form: pair.form.times(&stretch::product(&letters)).reduced(),
        };
        let rise = next.form.exponent.checked_sub(pair.form.exponent);
        if rise.map(usize::from) == Some(ending.len()) && next.unitary.exponent <= most {
            return next;
        }
    }
}

/// The same unitary with an exponent from its own up to the largest; its entries are Gaussian integers.
pub fn inflated_unitary(random: &mut Random, unitary: &Unitary) -> Unitary {
    let room = usize::from((MAX_EXPONENT - unitary.exponent) / 2);
    let doublings = random.below(room + 1);
    Unitary {
        matrix: scale(&unitary.matrix, Number::gaussian(1 << doublings, 0)),
        exponent: unitary.exponent + 2 * doublings as u8,
    }
}

/// The bytes of a unitary whose entries are Gaussian integers, at the exponent it has.
pub fn unitary_bytes(unitary: &Unitary) -> Vec<u8> {
    let mut bytes = vec![0; UNITARY_BYTES];
    unitary.write(&mut bytes);
    bytes
}

#[cfg(test)]
mod tests {
    use super::*;
    use plain::form;

    #[test]
    fn unitaries_have_the_wanted_count() {
        let mut random = Random::new(12);
        for count in 0..=MAX_UNITARY_COUNT {
            for most in [count.div_ceil(2), MAX_EXPONENT] {
                let unitary = unitary(&mut random, count, most);
                assert!(unitary.is_unitary() && unitary.exponent <= most);
                assert_eq!(form::of_unitary(&unitary).exponent, count);
                let inflated = inflated_unitary(&mut random, &unitary);
                let read = Unitary::read(&unitary_bytes(&inflated));
                assert_eq!(read, Ok(unitary.reduced()));
            }
        }
    }

    #[test]
    fn unitaries_have_the_wanted_form() {
        let mut random = Random::new(13);
        for count in (0..=MAX_UNITARY_COUNT).cycle().take(200) {
            let wanted = crate::operator(&mut random, count);
            if let Some(unitary) = unitary_of_form(&mut random, &wanted) {
                let form = form::of_unitary(&unitary);
                assert!(unitary.exponent <= MAX_EXPONENT);
                assert!(form == wanted || form == wanted.negative());
            }
        }
    }
}
