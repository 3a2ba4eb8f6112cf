//! Document 02, P7: bundles, read sheet by sheet and written from sheets that lie end to end.

use plain::file::LONG_BYTES;
use plain::{bundle_sheet, sheet_to_operator, sheets_to_bundle};

/// What an untouched byte of an output buffer holds.
const UNTOUCHED: u8 = 0xA5;

const IDENTITY_SHEET: [u8; 8] = [64, 1, 2, 3, 4, 5, 6, 0];

/// The sheets of the identity, `C` and `CHC`, and their trailer.
const THREE: [u8; 35] = [
    64, 1, 2, 3, 4, 5, 6, 0, // from 0
    65, 3, 1, 2, 3, 4, 5, 6, 0, // from 8
    66, 3, 13, 3, 130, 1, 4, 5, 6, 0, // from 17 to 27
    0, 0, 8, 0, 17, 0, // the offsets
    3, 0, // their number
];

/// The most sheets of a bundle.
const FULL: usize = 512;

/// What a bundle of so many sheets can be asked for in vain: the next ones, and far ones.
fn past(number: u64) -> Vec<u64> {
    let next = [0, 1, 256, 512].map(|more| number + more);
    let far = [1 << 16, 1 << 32, 1 << 63, u64::MAX];
    [next, far].concat()
}

/// Sheets of the identity and a right trailer.
fn of_identities(number: u16) -> Vec<u8> {
    let sheets = IDENTITY_SHEET.repeat(number.into());
    let offsets = (0..number).flat_map(|n| (8 * n).to_le_bytes());
    let trailer = offsets.chain(number.to_le_bytes());
    sheets.into_iter().chain(trailer).collect()
}

/// The bundle has sheets that end at these places and no others, and each is that part of the bundle
/// itself.
fn assert_sheets(bundle: &[u8], ends: &[usize]) {
    let starts = [&[0], ends].concat();
    for (n, (&start, &end)) in (0..).zip(starts.iter().zip(ends)) {
        let part = bundle_sheet(bundle, n).unwrap();
        assert_eq!(part.as_ptr_range(), bundle[start..end].as_ptr_range());
    }
    for n in past(ends.len() as u64) {
        assert_eq!(bundle_sheet(bundle, n), Err(22));
    }
}

/// The bundle is refused alike for every sheet that is asked for.
fn assert_refused(bundle: &[u8], refusal: u8) {
    for n in (0..4).chain(past(4)) {
        assert_eq!(bundle_sheet(bundle, n), Err(refusal), "{bundle:?}, {n}");
    }
}

/// The bundle of the three sheets with other bytes from a place on.
fn three_with(place: usize, bytes: &[u8]) -> Vec<u8> {
    let mut bundle = THREE.to_vec();
    bundle[place..place + bytes.len()].copy_from_slice(bytes);
    bundle
}

/// The sheets have this bundle, and the bytes past it are kept; with one byte less there is no room.
fn assert_written(sheets: &[u8], bundle: &[u8]) {
    let mut out = vec![UNTOUCHED; bundle.len() + 5];
    assert_eq!(sheets_to_bundle(sheets, &mut out), Ok(bundle.len()));
    assert_eq!(&out[..bundle.len()], bundle);
    assert_eq!(out[bundle.len()..], [UNTOUCHED; 5]);
    assert_not_written(sheets, 6, bundle.len() - 1);
}

/// The sheets are refused, and no byte is written.
fn assert_not_written(sheets: &[u8], refusal: u8, out_len: usize) {
    let mut out = vec![UNTOUCHED; out_len];
    assert_eq!(sheets_to_bundle(sheets, &mut out), Err(refusal));
    assert!(out.iter().all(|&byte| byte == UNTOUCHED));
}

/// The same, whether or not the buffer has room.
fn assert_no_sheets(sheets: &[u8], refusal: u8) {
    assert_not_written(sheets, refusal, 0);
    assert_not_written(sheets, refusal, 40_000);
}

#[test]
fn the_empty_bundle() {
    assert_sheets(&[0, 0], &[]);
    assert_written(&[], &[0, 0]);
}

#[test]
fn one_sheet() {
    let bundle = [64, 1, 2, 3, 4, 5, 6, 0, 0, 0, 1, 0];
    assert_sheets(&bundle, &[8]);
    assert_written(&IDENTITY_SHEET, &bundle);
}

#[test]
fn three_sheets() {
    assert_sheets(&THREE, &[8, 17, 27]);
    assert_written(&THREE[..27], &THREE);
}

#[test]
fn as_many_sheets_as_there_may_be() {
    for number in [1, 2, 255, 256, 257, 511, 512] {
        let bundle = of_identities(number);
        let ends: Vec<usize> = (1..=number.into()).map(|n| 8 * n).collect();
        assert_sheets(&bundle, &ends);
        assert_written(&IDENTITY_SHEET.repeat(number.into()), &bundle);
    }
}

#[test]
fn the_longest_bundle_that_is_written() {
    let sheet = [&[124], &[7; 67][..]].concat();
    let mut out = vec![UNTOUCHED; 35_842];
    assert_eq!(sheets_to_bundle(&sheet.repeat(FULL), &mut out), Ok(35_842));
    let ends: Vec<usize> = (1..=FULL).map(|n| 68 * n).collect();
    assert_sheets(&out, &ends);
}

#[test]
fn a_part_may_be_longer_than_a_sheet() {
    let part = [&[255], &[7; 198][..]].concat();
    let bundle = [&part[..], &IDENTITY_SHEET, &[0, 0, 199, 0, 2, 0]].concat();
    assert_sheets(&bundle, &[199, 207]);
    let file = &mut [0; LONG_BYTES];
    assert_eq!(sheet_to_operator(&bundle[..199], file), Err(10));
    assert_eq!(sheet_to_operator(&bundle[199..207], file), Ok(0));
    assert_no_sheets(&part, 21);
}

#[test]
fn no_trailer_of_a_fitting_length() {
    assert_refused(&[], 20);
    assert_refused(&[0], 20);
    assert_refused(&[1, 0], 20);
    assert_refused(&[0, 1], 20);
    assert_refused(&[0, 1, 0], 20);
    assert_refused(&THREE[..34], 20);
    assert_refused(&THREE[..1], 20);
    // 35 bytes hold the trailer of 16 sheets and not that of 17.
    assert_refused(&three_with(33, &[16, 0]), 21);
    assert_refused(&three_with(33, &[17, 0]), 20);
    // High byte first.
    assert_refused(&three_with(33, &[0, 3]), 20);
}

#[test]
fn more_than_512_sheets() {
    assert_refused(&of_identities(513), 20);
    assert_refused(&of_identities(514), 20);
    assert_refused(&of_identities(1024), 20);
    let mut bundle = of_identities(512);
    let last = bundle.len() - 2;
    bundle[last..].copy_from_slice(&513u16.to_le_bytes());
    assert_refused(&bundle, 20);
}

#[test]
fn first_bytes_below_64() {
    for place in [0, 8, 17] {
        for first in 0..64 {
            assert_refused(&three_with(place, &[first]), 21);
        }
    }
    // As long as its first byte says, and too short.
    assert_refused(&[63, 1, 2, 3, 4, 5, 6, 0, 0, 1, 0], 21);
    assert_refused(&[57, 0, 0, 1, 0], 21);
    // No sheet where one is pointed at.
    assert_refused(&[0, 0, 1, 0], 21);
    // As long as the first byte less 56 in eight bits.
    for (first, len) in [(0, 200), (55, 255)] {
        let part = [&[first], &[7; 255][1..len]].concat();
        assert_refused(&[&part[..], &[0, 0, 1, 0]].concat(), 21);
    }
}

#[test]
fn offsets_that_do_not_follow_the_sheets() {
    for offset in [27, 28, 29, 30, 31, 32] {
        for other in (0..=255).filter(|&other| other != THREE[offset]) {
            assert_refused(&three_with(offset, &[other]), 21);
        }
    }
    // Exchanged, and the ends of the sheets.
    assert_refused(&three_with(29, &[17, 0, 8, 0]), 21);
    assert_refused(&three_with(27, &[8, 0, 17, 0, 27, 0]), 21);
}

#[test]
fn sheets_that_do_not_end_where_the_trailer_starts() {
    // The last sheet reaches into the trailer, to the end of the bytes and past it.
    for more in 1..=189 {
        assert_refused(&three_with(17, &[66 + more]), 21);
    }
    // It ends before the trailer.
    assert_refused(&three_with(17, &[65]), 21);
    assert_refused(&three_with(17, &[64]), 21);
    assert_refused(&[&THREE[..27], &[0], &THREE[27..]].concat(), 21);
    assert_refused(&[&THREE[..26], &THREE[27..]].concat(), 21);
    // Another sheet stands before the trailer, or one is missing.
    let more = [&THREE[..27], &IDENTITY_SHEET, &THREE[27..]].concat();
    assert_refused(&more, 21);
    assert_refused(&[&THREE[..17], &THREE[27..]].concat(), 21);
    assert_refused(&THREE[27..], 21);
    // The number is one too small, or too large.
    assert_refused(&three_with(33, &[2, 0]), 21);
    assert_refused(&three_with(33, &[4, 0]), 21);
    assert_refused(&three_with(33, &[0, 0]), 21);
    // A byte is missing at the front, or one stands before it.
    assert_refused(&THREE[1..], 21);
    assert_refused(&[&[64], &THREE[..]].concat(), 21);
    assert_refused(&[0, 0, 0], 21);
}

#[test]
fn offsets_have_16_bits() {
    let part = [&[255], &[7; 198][..]].concat();
    let bundle = |last_but_one: usize| {
        let short = [&[56 + last_but_one as u8], &[7; 198][1..last_but_one]].concat();
        let sheets = [&part.repeat(329)[..], &short, &IDENTITY_SHEET].concat();
        let offsets = (0..=329).map(|n| 199 * n);
        let numbers = offsets.chain([199 * 329 + last_but_one, 331]);
        let trailer = numbers.flat_map(|number| (number as u16).to_le_bytes());
        [sheets, trailer.collect()].concat()
    };
    let longest = bundle(64);
    assert_eq!(bundle_sheet(&longest, 330), Ok(&longest[65_535..65_543]));
    assert_eq!(bundle_sheet(&longest, 331), Err(22));
    assert_refused(&bundle(65), 21);
    assert_refused(&bundle(66), 21);
}

#[test]
fn the_first_refusal_is_answered() {
    // 20 before 21: a wrong first byte, and a trailer that is too long.
    assert_refused(&[63, 0, 1, 0], 21);
    assert_refused(&[63, 1, 0], 20);
    let mut bundle = of_identities(513);
    bundle[0] = 63;
    assert_refused(&bundle, 20);
    // 21 before 22, which an empty bundle always earns.
    assert_refused(&[64, 0, 0], 21);
    assert_eq!(bundle_sheet(&[0, 0], 0), Err(22));
}

#[test]
fn more_than_512_sheets_to_bundle() {
    let full = IDENTITY_SHEET.repeat(FULL);
    for more in [
        &IDENTITY_SHEET[..],
        &IDENTITY_SHEET.repeat(2),
        &[&IDENTITY_SHEET[..], &[63]].concat(),
        &[&IDENTITY_SHEET[..], &IDENTITY_SHEET[..7]].concat(),
    ] {
        assert_no_sheets(&[&full[..], more].concat(), 20);
    }
    // The one after the 512th does not stand whole.
    for more in [&IDENTITY_SHEET[..7], &[64], &[63], &[0]] {
        assert_no_sheets(&[&full[..], more].concat(), 21);
    }
    // One before the 513th does not.
    let mut sheets = IDENTITY_SHEET.repeat(FULL + 100);
    sheets[8 * 511] = 63;
    assert_no_sheets(&sheets, 21);
}

#[test]
fn other_bytes_than_sheets_to_bundle() {
    let three = &THREE[..27];
    for end in (0..27).filter(|&end| ![0, 8, 17].contains(&end)) {
        assert_no_sheets(&three[..end], 21);
    }
    for start in (0..27).filter(|&start| ![0, 8, 17].contains(&start)) {
        assert_no_sheets(&three[start..], 21);
    }
    for first in (0..64).chain(125..=255) {
        let sheet = [first, 1, 2, 3, 4, 5, 6, 0];
        assert_no_sheets(&sheet, 21);
        assert_no_sheets(&[&sheet[..], three].concat(), 21);
        assert_no_sheets(&[three, &sheet].concat(), 21);
    }
    // As long as the first byte says, and too short or too long.
    assert_no_sheets(&[63, 1, 2, 3, 4, 5, 6], 21);
    assert_no_sheets(&[&[125], &[7; 68][..]].concat(), 21);
    assert_no_sheets(&THREE, 21);
    assert_no_sheets(&[0, 0], 21);
}

#[test]
fn sheets_are_bundled_as_they_are() {
    // 11, 12, 13, 15: the sheets' own refusals come when they are read.
    for sheet in [
        &[64, 0, 2, 3, 4, 5, 6, 0][..],
        &[64, 1, 2, 3, 4, 6, 5, 0],
        &[66, 3, 3, 1, 2, 3, 4, 5, 6, 0],
        &[64, 1, 2, 3, 4, 5, 6, 2],
    ] {
        let bundle = [sheet, &[0, 0, 1, 0]].concat();
        assert_written(sheet, &bundle);
        assert_sheets(&bundle, &[sheet.len()]);
        assert!(sheet_to_operator(sheet, &mut [0; LONG_BYTES]).is_err());
    }
}
