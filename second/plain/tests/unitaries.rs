//! Document 02, P5: four-by-four unitaries into gate lists and a power of ω.

use plain::file::Kind;
use plain::form;
use plain::omega::{Number, POWERS};
use plain::stretch::{crossings, cz_gates, product, stretches};
use plain::unitary::{multiply, scale, transpose, Unitary, MAX_EXPONENT, UNITARY_BYTES};
use plain::{operator_to_gates, unitary_to_gates, UnitaryLetters};

/// What an untouched byte of an output buffer holds.
const UNTOUCHED: u8 = 0xA5;

/// The length of a buffer that holds the gate list of any unitary.
const BUFFER: usize = 256 * 61;

/// The entries of a matrix, row by row, each as its real and its imaginary part.
type Rows = [[(i64, i64); 4]; 4];

const N: (i64, i64) = (0, 0);
const P: (i64, i64) = (1, 0);
const M: (i64, i64) = (-1, 0);
const I: (i64, i64) = (0, 1);

const H_FIRST: Rows = [[P, N, P, N], [N, P, N, P], [P, N, M, N], [N, P, N, M]];
const H_SECOND: Rows = [[P, P, N, N], [P, M, N, N], [N, N, P, P], [N, N, P, M]];
const CS: Rows = [[P, N, N, N], [N, P, N, N], [N, N, P, N], [N, N, N, I]];
const CZ: Rows = [[P, N, N, N], [N, P, N, N], [N, N, P, N], [N, N, N, M]];
const SWAP: Rows = [[P, N, N, N], [N, N, P, N], [N, P, N, N], [N, N, N, P]];
const CHC: Rows = [[P, N, P, N], [N, P, N, I], [P, N, M, N], [N, I, N, P]];

/// Its rows are orthonormal if no conjugates are taken, and not if they are.
const WITHOUT_CONJUGATES: Rows = [
    [(1, 0), (1, 0), (0, 1), (0, 0)],
    [(1, 0), (-1, 0), (0, 0), (0, 1)],
    [(0, 0), (0, -1), (1, 0), (-1, 0)],
    [(0, -1), (0, 0), (1, 0), (1, 0)],
];

fn unitary(exponent: u8, rows: Rows) -> Unitary {
    Unitary {
        matrix: rows.map(|row| row.map(|(re, im)| Number::gaussian(re, im))),
        exponent,
    }
}

fn diagonal(exponent: u8, entry: (i64, i64)) -> Unitary {
    let row = |row| std::array::from_fn(|column| if row == column { entry } else { N });
    unitary(exponent, std::array::from_fn(row))
}

fn bytes(unitary: &Unitary) -> [u8; UNITARY_BYTES] {
    let mut bytes = [0; UNITARY_BYTES];
    unitary.write(&mut bytes);
    bytes
}

/// The same unitary with the exponent raised by two as often as it can be, and at each exponent before.
fn at_every_exponent(unitary: Unitary) -> impl Iterator<Item = Unitary> {
    (0..=(MAX_EXPONENT - unitary.exponent) / 2).map(move |doublings| Unitary {
        matrix: scale(&unitary.matrix, Number::gaussian(1 << doublings, 0)),
        exponent: unitary.exponent + 2 * doublings,
    })
}

/// The answer and the gate list of an accepted unitary, which keep their promises.
fn kept(unitary: &Unitary) -> (UnitaryLetters, Vec<u8>) {
    let mut out = vec![UNTOUCHED; BUFFER];
    let answer = unitary_to_gates(&bytes(unitary), &mut out).expect("an accepted unitary");
    assert!(out[answer.letters..].iter().all(|&byte| byte == UNTOUCHED));
    let list = &out[..answer.letters];
    assert!(answer.omega < POWERS);
    let product = Unitary::product(list).times_omega(answer.omega);
    assert_eq!(product, unitary.reduced());
    assert_eq!(cs_gates(list), usize::from(answer.count));
    for stretch in stretches(list) {
        assert_eq!(cz_gates(stretch), crossings(&self::product(stretch)));
    }
    assert!(answer.count <= 2 * unitary.exponent + 2);
    (answer, list.to_vec())
}

fn cs_gates(list: &[u8]) -> usize {
    list.iter().filter(|&&letter| letter == b'C').count()
}

/// The unitary is refused whatever the buffer, and no byte is written.
fn assert_refused(bytes: &[u8], refusal: u8) {
    let mut out = [UNTOUCHED; BUFFER];
    assert_eq!(unitary_to_gates(bytes, &mut out), Err(refusal));
    assert_eq!(unitary_to_gates(bytes, &mut []), Err(refusal));
    assert_eq!(out, [UNTOUCHED; BUFFER]);
}

/// Lists of letters from a fixed seed, up to `longest` letters long.
fn lists(number: usize, longest: usize) -> impl Iterator<Item = Vec<u8>> {
    let mut state = 1u64;
    let mut below = move |limit: usize| {
        state = state
            .wrapping_mul(6_364_136_223_846_793_005)
            .wrapping_add(1);
        (state >> 33) as usize % limit
    };
    (0..number).map(move |_| {
        let len = below(longest + 1);
        (0..len).map(|_| b"HhSsZCC"[below(7)]).collect()
    })
}

/// Unitaries of random lists, with the lists.
fn of_lists() -> impl Iterator<Item = (Vec<u8>, Unitary)> {
    let unitaries = lists(4000, 120).map(|list| {
        let unitary = Unitary::product(&list).gaussian();
        (list, unitary)
    });
    unitaries.filter(|(_, unitary)| unitary.exponent <= MAX_EXPONENT)
}

#[test]
fn the_powers_of_omega_have_no_letters() {
    let powers = [
        diagonal(0, (1, 0)),
        diagonal(1, (1, 1)),
        diagonal(0, (0, 1)),
        diagonal(1, (-1, 1)),
        diagonal(0, (-1, 0)),
        diagonal(1, (-1, -1)),
        diagonal(0, (0, -1)),
        diagonal(1, (1, -1)),
    ];
    for (omega, power) in (0..).zip(powers) {
        let empty = UnitaryLetters {
            count: 0,
            letters: 0,
            loose: 0,
            omega,
        };
        for unitary in at_every_exponent(power) {
            assert_eq!(kept(&unitary), (empty, vec![]));
        }
    }
}

#[test]
fn known_unitaries_have_their_lists() {
    let known: [(u8, Rows, u8, u8, &[u8]); 4] = [
        (1, H_FIRST, 0, 0, b"H"),
        (1, H_SECOND, 0, 0, b"h"),
        (0, CZ, 0, 0, b"Z"),
        (0, CS, 1, 0, b"C"),
    ];
    for (exponent, rows, count, loose, list) in known {
        for unitary in at_every_exponent(unitary(exponent, rows)) {
            let (answer, letters) = kept(&unitary);
            assert_eq!((answer.count, answer.loose), (count, loose));
            assert_eq!((answer.omega, &letters[..]), (0, list));
        }
    }
    for unitary in at_every_exponent(unitary(0, SWAP)) {
        let (answer, letters) = kept(&unitary);
        assert_eq!((answer.count, cz_gates(&letters)), (0, 3));
    }
    for unitary in at_every_exponent(unitary(1, CHC)) {
        let (answer, _) = kept(&unitary);
        assert_eq!((answer.count, answer.loose), (2, 1));
    }
    assert_eq!(Unitary::product(b"CHC"), unitary(1, CHC));
}

#[test]
fn an_exponent_above_29_or_another_length_is_refused_first() {
    assert_refused(&bytes(&diagonal(30, (32_767, 0))), 17);
    assert_refused(&bytes(&diagonal(30, (1 << 14, 1 << 14))), 17);
    assert_refused(&bytes(&diagonal(30, N)), 17);
    assert_refused(&bytes(&diagonal(31, N)), 17);
    assert_refused(&bytes(&diagonal(255, (1, 0))), 17);
    let identity = bytes(&Unitary::IDENTITY);
    for len in (0..100).filter(|&len| len != UNITARY_BYTES) {
        let mut bytes = identity.to_vec();
        bytes.resize(len, 0);
        assert_refused(&bytes, 17);
        assert_refused(&vec![127; len], 17);
    }
    kept(&diagonal(13, (64, 64)));
    kept(&diagonal(14, (128, 0)));
    kept(&diagonal(28, (1 << 14, 0)));
    kept(&diagonal(29, (1 << 14, 1 << 14)));
    kept(&diagonal(29, (-1 << 14, 1 << 14)));
}

#[test]
fn a_large_entry_is_refused_before_what_is_not_unitary() {
    for exponent in 0..=MAX_EXPONENT {
        let most = 1i64 << exponent;
        let root = most.isqrt();
        for re in (0..root).step_by(1 + root as usize / 100).chain([root]) {
            let largest = (most - re * re).isqrt();
            for (im, refusal) in [(largest, 19), (largest + 1, 18)] {
                for entry in [(re, im), (-im, re), (-re, -im), (im, -re)] {
                    let mut single = diagonal(exponent, N);
                    single.matrix[2][1] = Number::gaussian(entry.0, entry.1);
                    assert_refused(&bytes(&single), refusal);
                }
            }
        }
    }
    let lowest = i64::from(i16::MIN);
    for exponent in [13, 29] {
        assert_refused(&bytes(&diagonal(exponent, (lowest, lowest))), 18);
        assert_refused(&bytes(&diagonal(exponent, (0, lowest))), 18);
    }
}

#[test]
fn products_of_rows_take_the_conjugate_of_one() {
    let wrong = unitary(0, WITHOUT_CONJUGATES);
    let product = multiply(&wrong.matrix, &transpose(&wrong.matrix));
    assert_eq!(product, Unitary::IDENTITY.matrix);
    for wrong in at_every_exponent(wrong) {
        assert_refused(&bytes(&wrong), 19);
    }
    let right = unitary(0, CS);
    let product = multiply(&right.matrix, &transpose(&right.matrix));
    assert_ne!(product, Unitary::IDENTITY.matrix);
    kept(&right);
}

#[test]
fn what_is_not_unitary_is_refused() {
    assert_refused(&bytes(&diagonal(1, P)), 19);
    assert_refused(&bytes(&diagonal(0, N)), 19);
    let chc = unitary(1, CHC);
    for row in 0..4 {
        for other in (0..4).filter(|&other| other != row) {
            for factor in [(1, 0), (0, 1), (-1, 0), (0, -1)] {
                let factor = Number::gaussian(factor.0, factor.1);
                let mut copied = chc;
                copied.matrix[row] = chc.matrix[other].map(|entry| entry.times(factor));
                assert_refused(&bytes(&copied), 19);
            }
        }
        let mut cleared = chc;
        cleared.matrix[row] = [Number::ZERO; 4];
        assert_refused(&bytes(&cleared), 19);
    }
}

#[test]
fn a_buffer_has_256_bytes_for_each_c_and_256_more() {
    for (list, unitary) in of_lists().take(200) {
        let (answer, letters) = kept(&unitary);
        let needed = 256 * (usize::from(answer.count) + 1);
        let mut out = vec![UNTOUCHED; needed];
        let short = unitary_to_gates(&bytes(&unitary), &mut out[..needed - 1]);
        assert_eq!(short, Err(6), "{list:?}");
        assert!(out.iter().all(|&byte| byte == UNTOUCHED));
        assert_eq!(unitary_to_gates(&bytes(&unitary), &mut out), Ok(answer));
        assert_eq!(out[..answer.letters], letters);
    }
}

#[test]
fn a_list_comes_back_with_no_more_c() {
    let mut times = [0; POWERS as usize];
    let mut deepest = 0;
    for (list, unitary) in of_lists() {
        let (answer, _) = kept(&unitary);
        assert!(usize::from(answer.count) <= cs_gates(&list));
        times[usize::from(answer.omega)] += 1;
        deepest = deepest.max(answer.count);
    }
    assert!(times.iter().all(|&times| times > 100), "{times:?}");
    assert!(deepest > 12, "{deepest}");
}

#[test]
fn every_count_up_to_twice_the_largest_exponent_comes_back() {
    let list = b"ChHZH".repeat(60);
    let beginnings = (0..=list.len()).map(|end| &list[..end]);
    let mut counts = vec![];
    for beginning in beginnings {
        let unitary = Unitary::product(beginning).gaussian();
        if unitary.exponent > MAX_EXPONENT {
            assert_refused(&bytes(&unitary), 17);
            continue;
        }
        let (answer, _) = kept(&unitary);
        assert_eq!(usize::from(answer.count), cs_gates(beginning));
        counts.push(answer.count);
    }
    counts.dedup();
    assert_eq!(counts, (0..=2 * MAX_EXPONENT).collect::<Vec<u8>>());
}

#[test]
fn a_larger_exponent_or_another_power_of_omega_has_the_same_letters() {
    for (_, unitary) in of_lists().take(400) {
        let (answer, list) = kept(&unitary);
        for power in 0..POWERS {
            let turned = unitary.times_omega(power).gaussian();
            if turned.exponent > MAX_EXPONENT {
                continue;
            }
            let omega = (answer.omega + power) % POWERS;
            for turned in at_every_exponent(turned) {
                let same = UnitaryLetters { omega, ..answer };
                assert_eq!(kept(&turned), (same, list.clone()));
            }
        }
    }
}

#[test]
fn the_letters_are_those_of_the_form_and_of_its_negative() {
    for (list, unitary) in of_lists() {
        let (answer, letters) = kept(&unitary);
        let form = form::of_unitary(&unitary);
        let images = product(&list).reduced();
        assert!(form == images || form == images.negative());
        for form in [form, form.negative()] {
            let file = Kind::written(form.exponent).file(&form);
            let mut out = vec![UNTOUCHED; BUFFER];
            let written = operator_to_gates(&file, &mut out).expect("an accepted operator");
            assert_eq!((written.count, written.loose), (answer.count, answer.loose));
            assert_eq!(out[..written.letters], letters);
        }
    }
}
