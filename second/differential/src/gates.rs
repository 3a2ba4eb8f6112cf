//! The promises of a gate list that was written for an operator or a unitary, by document 01 and document
//! 02, P5 and P9.

use plain::file::LONG_BYTES;
use plain::gate::{image, LETTERS_PER_COUNT};
use plain::omega::POWERS;
use plain::operator::Operator;
use plain::stretch::{crossings, cz_gates, product, stretches};
use plain::unitary::Unitary;

/// Answers what is wrong with a gate list of this count and this sign, written for an accepted operator
/// file, if anything is.
pub fn check(file: &[u8], list: &[u8], count: u64, sign: u8) -> Result<(), &'static str> {
    check_letters(list, count)?;
    demand(sign <= 1, "the sign of the gate list is above 1")?;
    let mut back = [0; LONG_BYTES];
    let answer = plain::gates_to_operator(list, &mut back);
    demand(answer == Ok(count as u8), "the gate list has another count")?;
    let operator = Operator::read(file).expect("an accepted operator");
    let said = samples::file(&operator.with_sign(sign));
    let multiplies = back[..said.len()] == said;
    demand(
        multiplies,
        "the gate list multiplies to another operator than its sign says",
    )?;
    check_stretches(list)
}

/// The same for a gate list of this count and this power of ω, written for an accepted unitary.
pub fn check_unitary(bytes: &[u8], list: &[u8], count: u64, omega: u8) -> Result<(), &'static str> {
    check_letters(list, count)?;
    demand(omega < POWERS, "the power of omega is above 7")?;
    let unitary = Unitary::read(bytes).expect("an accepted unitary");
    let multiplies = Unitary::product(list).times_omega(omega) == unitary;
    demand(
        multiplies,
        "the plain matrices and the power of omega give another unitary",
    )?;
    check_stretches(list)
}

fn check_letters(list: &[u8], count: u64) -> Result<(), &'static str> {
    let known = list.iter().all(|&letter| image(letter).is_some());
    demand(known, "a byte of the gate list is no letter")?;
    let count = count as usize;
    demand(cs_gates(list) == count, "the letters C are not the count")?;
    let short = list.len() <= LETTERS_PER_COUNT * (count + 1);
    demand(short, "the gate list has too many letters")
}

/// The number of a list's letters C.
pub fn cs_gates(list: &[u8]) -> usize {
    list.iter().filter(|&&letter| letter == b'C').count()
}

fn check_stretches(list: &[u8]) -> Result<(), &'static str> {
    let fewest = stretches(list).all(has_fewest_cz);
    demand(
        fewest,
        "a stretch of the gate list has not as many Z as indices cross",
    )
}

fn has_fewest_cz(stretch: &[u8]) -> bool {
    cz_gates(stretch) == crossings(&product(stretch))
}

/// Answers what is wrong unless the demand holds.
pub fn demand(holds: bool, otherwise: &'static str) -> Result<(), &'static str> {
    if holds {
        Ok(())
    } else {
        Err(otherwise)
    }
}

#[cfg(test)]
mod tests {
    use super::*;

    /// What is wrong with a list of this sign for the operator of another list.
    fn fault(of: &[u8], list: &[u8], sign: u8) -> Option<&'static str> {
        let operator = product(of).reduced();
        let file = samples::file(&operator);
        check(&file, list, operator.exponent.into(), sign).err()
    }

    #[test]
    fn a_list_that_keeps_its_promises_has_no_fault() {
        assert_eq!(fault(b"", b"", 0), None);
        assert_eq!(fault(b"ZZ", b"", 1), None);
        assert_eq!(fault(b"CHC", b"CHC", 0), None);
        assert_eq!(fault(b"CHCZZ", b"CHC", 1), None);
        assert_eq!(fault(b"ZHhCHC", b"ZHhCHC", 0), None);
        assert_eq!(fault(b"ZHhZHhZ", b"ZHhZHhZ", 0), None);
    }

    #[test]
    fn every_broken_promise_is_a_fault() {
        let faults: [(&[u8], &[u8], u8, &str); 14] = [
            (b"", b"x", 0, "no letter"),
            (b"C", b"CC", 0, "not the count"),
            (b"CC", b"CC", 0, "not the count"),
            (b"CHC", b"H", 0, "not the count"),
            (b"", &[b'H'; 258], 0, "too many"),
            (b"", b"", 2, "above 1"),
            (b"", b"", 255, "above 1"),
            (b"CHC", b"CSC", 0, "another count"),
            (b"", b"", 1, "than its sign says"),
            (b"ZZ", b"", 0, "than its sign says"),
            (b"CHC", b"HCC", 0, "another count"),
            (b"CHC", b"CHCH", 0, "than its sign says"),
            (b"CHC", b"CHCZZ", 1, "as indices cross"),
            (b"CHC", b"CZZHZZC", 0, "as indices cross"),
        ];
        for (of, list, sign, words) in faults {
            let fault = fault(of, list, sign).expect("a broken promise");
            assert!(fault.contains(words), "{list:?} for {of:?}: {fault}");
        }
    }

    /// What is wrong with a list of this power for the unitary of another list.
    fn fault_of_unitary(of: &[u8], list: &[u8], omega: u8) -> Option<&'static str> {
        let unitary = Unitary::product(of).gaussian();
        let count = product(of).reduced().exponent;
        check_unitary(&samples::unitary_bytes(&unitary), list, count.into(), omega).err()
    }

    #[test]
    fn a_list_of_a_unitary_that_keeps_its_promises_has_no_fault() {
        assert_eq!(fault_of_unitary(b"", b"", 0), None);
        assert_eq!(fault_of_unitary(b"ZZ", b"", 0), None);
        assert_eq!(fault_of_unitary(b"HSHSHS", b"", 1), None);
        assert_eq!(fault_of_unitary(b"SHSHSHhshshs", b"", 2), None);
        assert_eq!(fault_of_unitary(b"CHC", b"CHC", 0), None);
        let turned = [b"HS".repeat(12).as_slice(), b"CHC"].concat();
        assert_eq!(fault_of_unitary(b"CHC", &turned, 4), None);
    }

    #[test]
    fn every_broken_promise_to_a_unitary_is_a_fault() {
        let faults: [(&[u8], &[u8], u8, &str); 12] = [
            (b"", b"x", 0, "no letter"),
            (b"CC", b"CC", 0, "not the count"),
            (b"", b"CCCC", 0, "not the count"),
            (b"", &[b'H'; 258], 0, "too many"),
            (b"", b"", 8, "above 7"),
            (b"", b"", 255, "above 7"),
            (b"", b"", 1, "another unitary"),
            (b"CHC", b"CHC", 4, "another unitary"),
            (b"HCS", b"SCH", 0, "another unitary"),
            (b"H", b"h", 0, "another unitary"),
            (b"CHC", b"CHCZZ", 0, "as indices cross"),
            (b"CHC", b"CZZHC", 0, "as indices cross"),
        ];
        for (of, list, omega, words) in faults {
            let fault = fault_of_unitary(of, list, omega).expect("a broken promise");
            assert!(fault.contains(words), "{list:?} for {of:?}: {fault}");
        }
    }
}
