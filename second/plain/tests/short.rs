//! Document 02, P12: the sheets of count 0, 1 and 2 whose Clifford is the identity and whose last byte is 0,
//! listed by count and then by the numbers.

use plain::file::SHORT_BYTES;
use plain::generator::{GENERATORS, GENERATOR_COUNT};
use plain::sheet::Sheet;
use plain::sheet_to_operator;
use plain::short;

/// The bytes of the listed sheets.
fn listed() -> Vec<Vec<u8>> {
    let bytes = |sheet: Sheet| {
        let mut bytes = vec![0; sheet.size()];
        sheet.write(&mut bytes);
        bytes
    };
    short::list().into_iter().map(bytes).collect()
}

/// The bytes of the sheet with these numbers, the identity and the last byte 0.
fn sheet(numbers: &[u8]) -> Vec<u8> {
    let first = 64 + numbers.len() as u8;
    [&[first], numbers, &[1, 2, 3, 4, 5, 6, 0]].concat()
}

/// How many sheets of the count are listed.
fn count(count: u8) -> usize {
    let list = short::list();
    list.iter().filter(|sheet| sheet.count() == count).count()
}

/// Whether two numbers are listed, as the generators say. The rows of their product group by the pairs that
/// both have: as 2, 2, 2 if there are none, and as 2 and 4 if there is one, which the lowest generator that has
/// it then takes.
fn is_listed(first: usize, second: usize) -> bool {
    let pairs = |number: usize| GENERATORS[number - 1].pairs;
    let mut shared = pairs(first).to_vec();
    shared.retain(|pair| pairs(second).contains(pair));
    match shared[..] {
        [] => true,
        [pair] => (1..first).all(|lower| !pairs(lower).contains(&pair)),
        _ => false,
    }
}

#[test]
fn the_list_has_1_and_15_and_150_lines() {
    assert_eq!([0, 1, 2].map(count), [1, 15, 150]);
    assert_eq!(short::list().len(), 166);
    assert_eq!(short::text().lines().count(), 166);
}

#[test]
fn a_line_is_the_count_and_the_numbers() {
    let text = short::text();
    let lines: Vec<&str> = text.split_inclusive('\n').collect();
    assert_eq!(lines[..3], ["0\n", "1 1\n", "1 2\n"]);
    assert_eq!(lines[15..18], ["1 15\n", "2 1 2\n", "2 1 3\n"]);
    assert_eq!(lines[165], "2 15 11\n");
}

#[test]
fn the_list_rises_by_count_and_then_by_the_numbers() {
    let key = |sheet: &Sheet| (sheet.count(), sheet.generators.clone());
    let keys: Vec<_> = short::list().iter().map(key).collect();
    assert!(keys.is_sorted_by(|a, b| a < b));
}

#[test]
fn no_number_follows_itself() {
    for sheet in short::list() {
        assert!(sheet.generators.windows(2).all(|pair| pair[0] != pair[1]));
    }
}

#[test]
fn two_numbers_are_listed_as_their_generators_say() {
    let listed = listed();
    for first in 1..=GENERATOR_COUNT {
        for second in 1..=GENERATOR_COUNT {
            let sheet = sheet(&[first as u8, second as u8]);
            let is_listed = is_listed(first, second);
            assert_eq!(listed.contains(&sheet), is_listed, "{sheet:?}");
        }
    }
}

#[test]
fn a_sheet_is_read_exactly_if_it_is_listed() {
    let listed = listed();
    for first in 0..=GENERATOR_COUNT as u8 + 1 {
        for second in 0..=GENERATOR_COUNT as u8 + 1 {
            for numbers in [&[][..], &[first], &[first, second]] {
                let sheet = sheet(numbers);
                let read = sheet_to_operator(&sheet, &mut [0; SHORT_BYTES]);
                assert_eq!(read.is_ok(), listed.contains(&sheet), "{sheet:?}");
            }
        }
    }
}
