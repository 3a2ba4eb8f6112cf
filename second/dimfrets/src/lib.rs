//! Safe calls of the CS cutter's C interface, `include/dimfrets.h`. Formats, numbers and the order
//! of refusals are those of documents 01 and 02.
//!
//! A refusal leaves every byte of the output as it was; on success the bytes past the output keep
//! theirs too.
//!
//! # Example
//!
//! The operator of `CHC`: a file of the exponent k and 36 entries of 16 bits, low byte first.
//!
//! ```
//! let rows: [[i16; 6]; 6] = [
//!     [1, 1, 1, 0, 0, -1],
//!     [-1, -1, 1, 0, 0, -1],
//!     [1, -1, -1, 0, 0, -1],
//!     [0, 0, 0, 0, -2, 0],
//!     [0, 0, 0, 2, 0, 0],
//!     [1, -1, 1, 0, 0, 1],
//! ];
//! let mut file = vec![2];
//! file.extend(rows.iter().flatten().flat_map(|entry| entry.to_le_bytes()));
//!
//! let mut sheet = [0; dimfrets::MAX_SHEET];
//! let cuts = dimfrets::operator_to_sheet(&file, &mut sheet)?;
//! assert_eq!((cuts.count, cuts.loose), (2, 1));
//! assert_eq!(sheet[..10], [66, 3, 13, 3, 130, 1, 4, 5, 6, 0]);
//!
//! assert_eq!(dimfrets::states_to_order(28, 50), Ok(29));
//! # Ok::<(), dimfrets::Refusal>(())
//! ```
//!
//! Its gate list, and the way back: the letters multiply to the operator if the sign is 0, and to its
//! negative, the file with every entry turned, if it is 1.
//!
//! ```
//! # let rows: [[i16; 6]; 6] = [
//! #     [1, 1, 1, 0, 0, -1],
//! #     [-1, -1, 1, 0, 0, -1],
//! #     [1, -1, -1, 0, 0, -1],
//! #     [0, 0, 0, 0, -2, 0],
//! #     [0, 0, 0, 2, 0, 0],
//! #     [1, -1, 1, 0, 0, 1],
//! # ];
//! let file = |sign: i16| {
//!     let mut file = vec![2];
//!     file.extend(rows.iter().flatten().flat_map(|entry| (sign * entry).to_le_bytes()));
//!     file
//! };
//! let mut list = vec![0; dimfrets::GATES_BUFFER];
//! let written = dimfrets::operator_to_gates(&file(1), &mut list)?;
//! assert_eq!((written.count, written.loose), (2, 1));
//!
//! let mut product = [0; dimfrets::SHORT_OPERATOR_BYTES];
//! dimfrets::gates_to_operator(&list[..written.letters], &mut product)?;
//! let said = if written.sign == 0 { file(1) } else { file(-1) };
//! assert_eq!(product[..], said);
//! # Ok::<(), dimfrets::Refusal>(())
//! ```
//!
//! An operator of count 40: its file is a long one, with entries of 32 bits. What is written is as long as its
//! count says, in a buffer that takes either kind, and a part of it of that length is read back.
//!
//! ```
//! let list = b"ChH".repeat(40);
//! let mut buffer = [0; dimfrets::LONG_OPERATOR_BYTES];
//! let count = dimfrets::gates_to_operator(&list, &mut buffer)?;
//! assert_eq!(count, 40);
//! let file = &buffer[..dimfrets::operator_bytes(count)];
//! assert_eq!((file.len(), file[0]), (145, 40));
//!
//! let mut sheet = [0; dimfrets::MAX_SHEET];
//! let cuts = dimfrets::operator_to_sheet(file, &mut sheet)?;
//! assert_eq!(cuts.count, 40);
//! assert_eq!(sheet[0], 64 + 40);
//! assert_eq!(dimfrets::operator_bytes(28), 73);
//! # Ok::<(), dimfrets::Refusal>(())
//! ```
//!
//! The unitary of `CHC`: the exponent k, and 16 Gaussian integers, the real part first. Its plain matrices,
//! times a power of ω = (1 + i) / √2, are the unitary.
//!
//! ```
//! let rows: [[(i16, i16); 4]; 4] = [
//!     [(1, 0), (0, 0), (1, 0), (0, 0)],
//!     [(0, 0), (1, 0), (0, 0), (0, 1)],
//!     [(1, 0), (0, 0), (-1, 0), (0, 0)],
//!     [(0, 0), (0, 1), (0, 0), (1, 0)],
//! ];
//! let parts = rows.iter().flatten().flat_map(|&(re, im)| [re, im]);
//! let mut unitary = vec![1];
//! unitary.extend(parts.flat_map(i16::to_le_bytes));
//!
//! let mut list = vec![0; dimfrets::GATES_BUFFER];
//! let written = dimfrets::unitary_to_gates(&unitary, &mut list)?;
//! assert_eq!((written.count, written.loose), (2, 1));
//! assert!(written.omega < 8);
//! # Ok::<(), dimfrets::Refusal>(())
//! ```
//!
//! Its sheet behind that of the identity, in a bundle: the sheets, their offsets, and how many there
//! are.
//!
//! ```
//! let sheets = [64, 1, 2, 3, 4, 5, 6, 0, 66, 3, 13, 3, 130, 1, 4, 5, 6, 0];
//! let mut out = vec![0; dimfrets::BUNDLE_BUFFER];
//! let written = dimfrets::sheets_to_bundle(&sheets, &mut out)?;
//! let bundle = &out[..written];
//! assert_eq!(bundle[..18], sheets);
//! assert_eq!(bundle[18..], [0, 0, 8, 0, 2, 0]);
//!
//! let sheet = dimfrets::bundle_sheet(bundle, 1)?;
//! assert_eq!(sheet, &bundle[8..18]);
//! let mut file = [0; dimfrets::SHORT_OPERATOR_BYTES];
//! assert_eq!(dimfrets::sheet_to_operator(sheet, &mut file), Ok(2));
//! # Ok::<(), dimfrets::Refusal>(())
//! ```
//!
//! A gate list as OpenQASM 2.0 text, which runs in time order: its first statement is the last letter.
//!
//! ```
//! let mut out = vec![0; dimfrets::QASM_BUFFER];
//! let written = dimfrets::gates_to_qasm(b"CHs", &mut out)?;
//! let lines = [
//!     "OPENQASM 2.0;",
//!     "include \"qelib1.inc\";",
//!     "qreg q[2];",
//!     "s q[1];",
//!     "h q[0];",
//!     "cu1(pi/2) q[0],q[1];",
//!     "",
//! ];
//! assert_eq!(out[..written], *lines.join("\n").as_bytes());
//!
//! let mut list = [0; 3];
//! dimfrets::qasm_to_gates(&out[..written], &mut list)?;
//! assert_eq!(&list, b"CHs");
//! # Ok::<(), dimfrets::Refusal>(())
//! ```
//!
//! A program of five blocks, each by its two qubits, and their layers: the first two blocks share no qubit,
//! the third waits for both of them, the fourth for the second alone, and the last for the third and the
//! fourth.
//!
//! ```
//! let blocks = [0, 1, 2, 31, 1, 2, 31, 7, 7, 2];
//! let mut layers = [0; 5];
//! assert_eq!(dimfrets::blocks_to_layers(&blocks, &mut layers), Ok(3));
//! assert_eq!(layers, [0, 0, 1, 1, 2]);
//! ```

#![deny(unsafe_op_in_unsafe_fn)]

mod refusal;

pub use refusal::Refusal;

/// The length of a short operator file, with entries of 16 bits.
pub const SHORT_OPERATOR_BYTES: usize = 73;
/// The length of a long operator file, with entries of 32 bits; a buffer of this length holds any that is
/// written.
pub const LONG_OPERATOR_BYTES: usize = 145;
/// The largest exponent k of a short operator file.
pub const MAX_SHORT_EXPONENT: u8 = 28;
/// The largest exponent k of a long operator file, and with it the largest count.
pub const MAX_COUNT: u8 = 60;
/// The length of a unitary.
pub const UNITARY_BYTES: usize = 65;
/// The length of the longest sheet.
pub const MAX_SHEET: usize = 8 + MAX_COUNT as usize;
/// The length of the longest gate list that is read, also from a text.
pub const MAX_LETTERS: usize = 16_384;
/// The length of a buffer that holds the gate list of any operator or unitary.
pub const GATES_BUFFER: usize = 256 * (MAX_COUNT as usize + 1);
/// The most sheets of a bundle.
pub const MAX_SHEETS: usize = 512;
/// The length of a buffer that holds any bundle written: for each sheet its bytes and two of its
/// offset, and two of the number of sheets.
pub const BUNDLE_BUFFER: usize = MAX_SHEETS * (MAX_SHEET + 2) + 2;
/// The length of a buffer that holds any text written: its first three lines, and the statement of C for
/// each letter.
pub const QASM_BUFFER: usize = 47 + 21 * MAX_LETTERS;
/// The most blocks of a program, and with them layers.
pub const MAX_BLOCKS: usize = 64;
/// The number of qubits of a program, which are numbered from 0.
pub const QUBITS: u8 = 32;

/// What a written sheet has: its count, and L, the number of cuts whose rows grouped as 2 and 4.
#[derive(Clone, Copy, Debug, PartialEq, Eq)]
pub struct Cuts {
    pub count: u8,
    pub loose: u8,
}

/// What a written gate list has: its count, the number of its letters C, all its letters, L, the number
/// of cuts whose rows grouped as 2 and 4, and the sign, 0 if it multiplies to the operator and 1 if to its
/// negative.
#[derive(Clone, Copy, Debug, PartialEq, Eq)]
pub struct Letters {
    pub count: u8,
    pub letters: usize,
    pub loose: u8,
    pub sign: u8,
}

/// What the written gate list of a unitary has: its count, the number of its letters C, all its letters, L,
/// the number of cuts whose rows grouped as 2 and 4, and the power of ω, from 0 to 7, that stands before it.
#[derive(Clone, Copy, Debug, PartialEq, Eq)]
pub struct UnitaryLetters {
    pub count: u8,
    pub letters: usize,
    pub loose: u8,
    pub omega: u8,
}

/// A call from lent bytes to lent bytes.
type Call = unsafe extern "C" fn(*const u8, usize, *mut u8, usize) -> u64;

extern "C" {
    fn dimfrets_operator_to_sheet(i: *const u8, i_len: usize, o: *mut u8, o_len: usize) -> u64;
    fn dimfrets_operator_to_gates(i: *const u8, i_len: usize, o: *mut u8, o_len: usize) -> u64;
    fn dimfrets_unitary_to_gates(i: *const u8, i_len: usize, o: *mut u8, o_len: usize) -> u64;
    fn dimfrets_gates_to_operator(i: *const u8, i_len: usize, o: *mut u8, o_len: usize) -> u64;
    fn dimfrets_sheet_to_operator(i: *const u8, i_len: usize, o: *mut u8, o_len: usize) -> u64;
    fn dimfrets_states_to_order(t: u64, p: u64) -> u64;
    fn dimfrets_bundle_sheet(i: *const u8, i_len: usize, n: u64) -> u64;
    fn dimfrets_sheets_to_bundle(i: *const u8, i_len: usize, o: *mut u8, o_len: usize) -> u64;
    fn dimfrets_gates_to_qasm(i: *const u8, i_len: usize, o: *mut u8, o_len: usize) -> u64;
    fn dimfrets_qasm_to_gates(i: *const u8, i_len: usize, o: *mut u8, o_len: usize) -> u64;
    fn dimfrets_blocks_to_layers(i: *const u8, i_len: usize, o: *mut u8, o_len: usize) -> u64;
}

/// The length of the operator file that is written for a count: that of a short one where it suffices.
pub fn operator_bytes(count: u8) -> usize {
    if count <= MAX_SHORT_EXPONENT {
        SHORT_OPERATOR_BYTES
    } else {
        LONG_OPERATOR_BYTES
    }
}

/// Cuts an operator file into its sheet and answers the count t and L, which is below t, or 0 where t
/// is. The file is a byte k and 36 entries row by row, low byte first, two's complement: 73 bytes with k at
/// most 28 and entries of 16 bits, or 145 bytes with k at most 60 and entries of 32 bits; both kinds of one
/// operator have one result.
///
/// The sheet has t + 8 bytes: 64 + t, t generator numbers, six columns of a Clifford whose column 1
/// is positive, and a last byte, 0 for their product and 1 for its negative. Two operators agree up to
/// sign exactly when their sheets agree before the last byte. Sheets laid end to end can be told apart:
/// each is as long as its first byte less 56.
///
/// Refuses with [`Refusal::FileLength`] to [`Refusal::BufferTooShort`], in their order.
pub fn operator_to_sheet(file: &[u8], out: &mut [u8]) -> Result<Cuts, Refusal> {
    cuts(run(dimfrets_operator_to_sheet, file, out))
}

/// Cuts an operator file of either kind into a gate list of t letters C, the fewest for the operator and for
/// its negative; `out` has at least 256 × (t + 1) bytes. Each stretch without C, the ends included, has as
/// many Z as there are indices among 1 to 3 that it sends to 4 to 6; no Clifford letters with that product, up
/// to sign, have fewer. The list multiplies to the operator if the sign is 0, and to its negative if it is 1.
///
/// Refuses with [`Refusal::FileLength`] to [`Refusal::BufferTooShort`], in their order.
pub fn operator_to_gates(file: &[u8], out: &mut [u8]) -> Result<Letters, Refusal> {
    letters(run(dimfrets_operator_to_gates, file, out))
}

/// Cuts a four-by-four unitary into a gate list of t letters C, the fewest for the unitary up to a power of
/// ω; `out` has at least 256 × (t + 1) bytes. The unitary has 65 bytes: the exponent k, at most 29, and 16
/// Gaussian integers row by row, the real part first, 16 bits each, low byte first; the first qubit is the
/// left tensor factor. ω to the power that is answered, times the plain matrices H, S, CZ and CS of the
/// letters, is the unitary exactly. The letters, t and L are those of [`operator_to_gates`] for the
/// six-by-six form of the unitary.
///
/// Refuses with [`Refusal::UnitaryShape`], [`Refusal::UnitaryEntry`], [`Refusal::NotUnitary`] or
/// [`Refusal::BufferTooShort`], in this order.
pub fn unitary_to_gates(unitary: &[u8], out: &mut [u8]) -> Result<UnitaryLetters, Refusal> {
    unitary_letters(run(dimfrets_unitary_to_gates, unitary, out))
}

/// Multiplies a gate list, writes the operator file with the least exponent, and answers the operator's
/// count. The file has [`operator_bytes`] of the count: 73, or 145 where the count is above 28.
///
/// Refuses with [`Refusal::TooManyLetters`]; then with [`Refusal::UnknownLetter`] or
/// [`Refusal::BeginningTooDeep`] at the leftmost place; then with [`Refusal::BufferTooShort`].
pub fn gates_to_operator(list: &[u8], out: &mut [u8]) -> Result<u8, Refusal> {
    count(run(dimfrets_gates_to_operator, list, out))
}

/// Multiplies a sheet, its sign included, writes the operator file with the least exponent, and answers the
/// count. The file has [`operator_bytes`] of the count: 73, or 145 where the count is above 28.
///
/// Refuses with [`Refusal::SheetLength`], [`Refusal::SheetCount`], [`Refusal::SheetByte`],
/// [`Refusal::NoClifford`], [`Refusal::SheetSign`], [`Refusal::OtherSheet`] or
/// [`Refusal::BufferTooShort`], in this order.
pub fn sheet_to_operator(sheet: &[u8], out: &mut [u8]) -> Result<u8, Refusal> {
    count(run(dimfrets_sheet_to_operator, sheet, out))
}

/// The number of CS states to order for the count `t` and a spoilage of `p` thousandths: `t` plus
/// `t * p / 1000`, rounded to the nearest whole state, an exact half to the even one.
///
/// Refuses with [`Refusal::OrderOutOfRange`].
pub fn states_to_order(t: u64, p: u64) -> Result<u8, Refusal> {
    // SAFETY: the call takes numbers alone and is defined for all of them.
    count(unsafe { dimfrets_states_to_order(t, p) })
}

/// Sheet `n` of a bundle, counted from 0, as that part of the bundle. It is not empty and lies before
/// the trailer. It has 8 to 199 bytes, of which the first alone is looked at, so it may earn the
/// refusals of [`sheet_to_operator`].
///
/// Refuses with [`Refusal::BundleTrailer`], [`Refusal::BundleSheets`] or [`Refusal::NoSheet`], in this
/// order.
pub fn bundle_sheet(bundle: &[u8], n: u64) -> Result<&[u8], Refusal> {
    let lent = readable(bundle);
    // SAFETY: the pointer is valid for the length, and the call writes nothing.
    let word = unsafe { dimfrets_bundle_sheet(lent.as_ptr(), bundle.len(), n) };
    part_of(bundle, word)
}

/// Writes the bundle of sheets that lie end to end, and answers its number of bytes: those of the
/// sheets, and two for each sheet and two more. A sheet's first byte is from 64 to 124; no other byte
/// of it is looked at.
///
/// Refuses with [`Refusal::BundleTrailer`] where 513 sheets or more lie end to end from the front, then
/// with [`Refusal::BundleSheets`] where something else follows the sheets, then with
/// [`Refusal::BufferTooShort`].
pub fn sheets_to_bundle(sheets: &[u8], out: &mut [u8]) -> Result<usize, Refusal> {
    bytes_written(run(dimfrets_sheets_to_bundle, sheets, out))
}

/// Writes a gate list as OpenQASM 2.0 text, and answers its number of bytes. The text has the lines
/// `OPENQASM 2.0;`, `include "qelib1.inc";` and `qreg q[2];`, then a statement a line, from the last
/// letter to the first: `h` and `s` on `q[0]` for H and S, on `q[1]` for h and s, and on `q[0],q[1]`
/// `cz` for Z and `cu1(pi/2)` for C. How deep the list goes is not looked at.
///
/// Refuses with [`Refusal::TooManyLetters`], [`Refusal::UnknownLetter`] or
/// [`Refusal::BufferTooShort`], in this order.
pub fn gates_to_qasm(list: &[u8], out: &mut [u8]) -> Result<usize, Refusal> {
    bytes_written(run(dimfrets_gates_to_qasm, list, out))
}

/// Reads a text that [`gates_to_qasm`] writes, or one with the two qubits of a statement in the other
/// order, writes its letters, and answers how many there are: one for each statement, that of the last
/// statement first.
///
/// Refuses with [`Refusal::NoStatement`], wherever in the text it is earned, then with
/// [`Refusal::TooManyLetters`], then with [`Refusal::BufferTooShort`].
pub fn qasm_to_gates(text: &[u8], out: &mut [u8]) -> Result<usize, Refusal> {
    bytes_written(run(dimfrets_qasm_to_gates, text, out))
}

/// Writes the layer of each block of a program, from 0, one byte a block in list order, and answers how many
/// layers there are: 0 where there are no blocks, and at most 64. A block is two bytes, the numbers from 0 to
/// 31 of its two different qubits. Of two blocks that share a qubit the later one has the higher layer; no
/// layering with that property has fewer layers or puts any block earlier.
///
/// Refuses with [`Refusal::ProgramLength`], [`Refusal::BlockQubits`], in whichever block it is earned, or
/// [`Refusal::BufferTooShort`], in this order.
pub fn blocks_to_layers(blocks: &[u8], out: &mut [u8]) -> Result<u8, Refusal> {
    count(run(dimfrets_blocks_to_layers, blocks, out))
}

/// Lends both slices to a call. An empty slice is lent as an existing byte with the length 0, for
/// its own pointer may point nowhere.
fn run(call: Call, input: &[u8], out: &mut [u8]) -> u64 {
    let (in_len, out_len) = (input.len(), out.len());
    let input = readable(input);
    let spare = &mut [0][..];
    let out = if out_len == 0 { spare } else { out };
    // SAFETY: both are valid for their lengths; a shared and an exclusive borrow are apart.
    unsafe { call(input.as_ptr(), in_len, out.as_mut_ptr(), out_len) }
}

/// The slice, or an existing byte in place of an empty one.
fn readable(input: &[u8]) -> &[u8] {
    if input.is_empty() {
        &[0]
    } else {
        input
    }
}

/// The parts of an answer that is no refusal; the last is a sign or a power of ω.
struct Parts {
    value: u32,
    length: u16,
    loose: u8,
    sign: u8,
}

impl Parts {
    /// An answer with nothing beside its value.
    fn alone(self) -> Parts {
        self.without_length().without_loose().without_sign()
    }

    fn without_length(self) -> Parts {
        assert_eq!(
            self.length, 0,
            "only a gate list that is written or a part of a bundle has a length"
        );
        self
    }

    fn without_loose(self) -> Parts {
        assert_eq!(self.loose, 0, "only what is cut has an L");
        self
    }

    fn without_sign(self) -> Parts {
        assert_eq!(self.sign, 0, "only a gate list that is written has a sign");
        self
    }
}

/// Takes the word of an answer apart: the refusal's number in bits 0 to 7, the value in 8 to 31,
/// the length in 32 to 47, L in 48 to 55, the sign or the power of ω in 56 to 63. With a refusal all other
/// bits are 0.
fn parts(word: u64) -> Result<Parts, Refusal> {
    if word as u8 != 0 {
        let number = u8::try_from(word).expect("a refusal has no other part");
        return Err(Refusal::from_number(number).expect("a refusal has a known number"));
    }
    Ok(Parts {
        value: word as u32 >> 8,
        length: (word >> 32) as u16,
        loose: (word >> 48) as u8,
        sign: (word >> 56) as u8,
    })
}

/// The count, the figure or the number of layers, of an answer with no other part.
fn count(word: u64) -> Result<u8, Refusal> {
    let parts = parts(word)?.alone();
    Ok(byte(parts.value))
}

/// The number of bytes written, of an answer with no other part.
fn bytes_written(word: u64) -> Result<usize, Refusal> {
    let parts = parts(word)?.alone();
    Ok(parts.value as usize)
}

/// The part of a bundle whose place and length an answer says.
fn part_of(bundle: &[u8], word: u64) -> Result<&[u8], Refusal> {
    let parts = parts(word)?.without_loose().without_sign();
    let start = parts.value as usize;
    Ok(&bundle[start..start + usize::from(parts.length)])
}

/// The count of a written sheet, and L.
fn cuts(word: u64) -> Result<Cuts, Refusal> {
    let parts = parts(word)?.without_length().without_sign();
    Ok(Cuts {
        count: byte(parts.value),
        loose: parts.loose,
    })
}

/// The count of a written gate list, its length, L, and the sign.
fn letters(word: u64) -> Result<Letters, Refusal> {
    let parts = parts(word)?;
    assert!(parts.sign <= 1, "a sign is 0 or 1");
    Ok(Letters {
        count: byte(parts.value),
        letters: parts.length.into(),
        loose: parts.loose,
        sign: parts.sign,
    })
}

/// The count of a unitary's written gate list, its length, L, and the power of ω.
fn unitary_letters(word: u64) -> Result<UnitaryLetters, Refusal> {
    let parts = parts(word)?;
    assert!(parts.sign <= 7, "a power of omega is 0 to 7");
    Ok(UnitaryLetters {
        count: byte(parts.value),
        letters: parts.length.into(),
        loose: parts.loose,
        omega: parts.sign,
    })
}

/// A count, a figure or a number of layers.
fn byte(value: u32) -> u8 {
    u8::try_from(value).expect("a count is below 256")
}

#[cfg(test)]
mod tests {
    use super::*;

    /// The first three lines of a text.
    const FIRST_LINES: &str = "OPENQASM 2.0;\ninclude \"qelib1.inc\";\nqreg q[2];\n";

    #[test]
    fn an_answer_is_taken_apart() {
        let written = Letters {
            count: 255,
            letters: 65535,
            loose: 0,
            sign: 0,
        };
        assert_eq!(letters(65535 << 32 | 255 << 8), Ok(written));
        let loose = Letters {
            count: 28,
            letters: 1,
            loose: 255,
            sign: 0,
        };
        assert_eq!(letters(255 << 48 | 1 << 32 | 28 << 8), Ok(loose));
        let negative = Letters {
            count: 0,
            letters: 0,
            loose: 0,
            sign: 1,
        };
        assert_eq!(letters(1 << 56), Ok(negative));
        assert_eq!(letters(1), Err(Refusal::FileLength));
        let taken = Cuts {
            count: 28,
            loose: 27,
        };
        assert_eq!(cuts(27 << 48 | 28 << 8), Ok(taken));
        assert_eq!(cuts(6), Err(Refusal::BufferTooShort));
        let phased = UnitaryLetters {
            count: 26,
            letters: 1,
            loose: 25,
            omega: 7,
        };
        let word = 7 << 56 | 25 << 48 | 1 << 32 | 26 << 8;
        assert_eq!(unitary_letters(word), Ok(phased));
        assert_eq!(unitary_letters(17), Err(Refusal::UnitaryShape));
        assert_eq!(unitary_letters(18), Err(Refusal::UnitaryEntry));
        assert_eq!(unitary_letters(19), Err(Refusal::NotUnitary));
        assert_eq!(count(28 << 8), Ok(28));
        assert_eq!(count(14), Err(Refusal::OrderOutOfRange));
        assert_eq!(count(15), Err(Refusal::SheetSign));
        assert_eq!(count(16), Err(Refusal::SheetCount));
        assert_eq!(bytes_written(0xFF_FFFF << 8), Ok(0xFF_FFFF));
        assert_eq!(bytes_written(20), Err(Refusal::BundleTrailer));
        assert_eq!(bytes_written(23), Err(Refusal::NoStatement));
        assert_eq!(part_of(&[7, 8, 9], 2 << 32 | 1 << 8), Ok(&[8, 9][..]));
        assert_eq!(part_of(&[7, 8, 9], 21), Err(Refusal::BundleSheets));
        assert_eq!(part_of(&[], 22), Err(Refusal::NoSheet));
        assert_eq!(count(64 << 8), Ok(64));
        assert_eq!(count(24), Err(Refusal::ProgramLength));
        assert_eq!(count(25), Err(Refusal::BlockQubits));
    }

    #[test]
    #[should_panic(expected = "known number")]
    fn a_refusal_has_a_known_number() {
        let _ = count(26);
    }

    #[test]
    #[should_panic(expected = "no other part")]
    fn a_refusal_has_no_value() {
        let _ = count(28 << 8 | 1);
    }

    #[test]
    #[should_panic(expected = "no other part")]
    fn a_refusal_has_no_bit_beside_it() {
        let _ = letters(1 << 63 | 1);
    }

    #[test]
    #[should_panic(expected = "no other part")]
    fn a_refusal_has_no_place() {
        let _ = part_of(&[0; 16], 8 << 8 | 22);
    }

    #[test]
    #[should_panic(expected = "no other part")]
    fn a_refusal_has_no_length() {
        let _ = part_of(&[0; 16], 8 << 32 | 22);
    }

    #[test]
    #[should_panic(expected = "no other part")]
    fn a_refusal_has_no_sign() {
        let _ = letters(1 << 56 | 6);
    }

    #[test]
    #[should_panic(expected = "a sign is 0 or 1")]
    fn a_sign_is_not_2() {
        let _ = letters(2 << 56 | 28 << 8);
    }

    #[test]
    #[should_panic(expected = "a sign is 0 or 1")]
    fn a_sign_has_no_bit_63() {
        let _ = letters(129 << 56 | 28 << 8);
    }

    #[test]
    #[should_panic(expected = "a power of omega is 0 to 7")]
    fn a_power_of_omega_is_not_8() {
        let _ = unitary_letters(8 << 56 | 26 << 8);
    }

    #[test]
    #[should_panic(expected = "a power of omega is 0 to 7")]
    fn a_power_of_omega_has_no_bit_63() {
        let _ = unitary_letters(128 << 56 | 26 << 8);
    }

    #[test]
    #[should_panic(expected = "no other part")]
    fn a_refusal_has_no_power_of_omega() {
        let _ = unitary_letters(1 << 56 | 19);
    }

    #[test]
    #[should_panic(expected = "below 256")]
    fn the_count_of_a_unitary_is_below_256() {
        let _ = unitary_letters(1 << 31);
    }

    #[test]
    #[should_panic(expected = "has a sign")]
    fn a_sheet_has_no_sign_beside_it() {
        let _ = cuts(1 << 56 | 28 << 8);
    }

    #[test]
    #[should_panic(expected = "has a sign")]
    fn a_count_has_no_sign() {
        let _ = count(1 << 56 | 28 << 8);
    }

    #[test]
    #[should_panic(expected = "has a sign")]
    fn a_count_has_no_bit_63() {
        let _ = count(1 << 63 | 28 << 8);
    }

    #[test]
    #[should_panic(expected = "has a sign")]
    fn a_bundle_has_no_sign() {
        let _ = bytes_written(1 << 56 | 2 << 8);
    }

    #[test]
    #[should_panic(expected = "has a sign")]
    fn a_part_has_no_sign() {
        let _ = part_of(&[0; 16], 1 << 56 | 8 << 32);
    }

    #[test]
    #[should_panic(expected = "only what is cut")]
    fn only_what_is_cut_has_an_l() {
        let _ = count(1 << 48 | 28 << 8);
    }

    #[test]
    #[should_panic(expected = "only what is cut")]
    fn a_part_has_no_l() {
        let _ = part_of(&[0; 16], 1 << 48 | 8 << 32);
    }

    #[test]
    #[should_panic(expected = "out of range")]
    fn a_part_ends_inside_its_bundle() {
        let _ = part_of(&[0; 16], 8 << 32 | 9 << 8);
    }

    #[test]
    #[should_panic(expected = "out of range")]
    fn a_part_starts_inside_its_bundle() {
        let _ = part_of(&[0; 16], 8 << 32 | 0xFF_FFFF << 8);
    }

    #[test]
    #[should_panic(expected = "only what is cut")]
    fn a_bundle_has_no_l() {
        let _ = bytes_written(1 << 48 | 2 << 8);
    }

    #[test]
    #[should_panic(expected = "has a length")]
    fn a_sheet_has_no_length() {
        let _ = cuts(1 << 32 | 28 << 8);
    }

    #[test]
    #[should_panic(expected = "has a length")]
    fn a_count_has_no_length() {
        let _ = count(1 << 32 | 28 << 8);
    }

    #[test]
    #[should_panic(expected = "has a length")]
    fn a_bundle_has_no_length() {
        let _ = bytes_written(1 << 32 | 2 << 8);
    }

    #[test]
    #[should_panic(expected = "below 256")]
    fn a_count_is_below_256() {
        let _ = count(256 << 8);
    }

    #[test]
    #[should_panic(expected = "below 256")]
    fn the_count_of_a_gate_list_is_below_256() {
        let _ = letters(1 << 31);
    }

    #[test]
    fn a_sheet_has_a_sign() {
        let mut file = [0; SHORT_OPERATOR_BYTES];
        let sheet = [64, 1, 2, 3, 4, 5, 6, 1];
        assert_eq!(sheet_to_operator(&sheet, &mut file), Ok(0));
        assert_eq!(file[..3], [0, 255, 255]);
        let mut back = [9; MAX_SHEET];
        let none = Cuts { count: 0, loose: 0 };
        assert_eq!(operator_to_sheet(&file, &mut back), Ok(none));
        assert_eq!(back[..9], [64, 1, 2, 3, 4, 5, 6, 1, 9]);
        assert_eq!(
            operator_to_sheet(&file, &mut back[..7]),
            Err(Refusal::BufferTooShort)
        );
        for sheet in [
            [64, 1, 2, 3, 4, 5, 6, 2],
            [64, 129, 130, 131, 132, 133, 134, 0],
        ] {
            assert_eq!(
                sheet_to_operator(&sheet, &mut file),
                Err(Refusal::SheetSign)
            );
        }
    }

    #[test]
    fn a_gate_list_has_a_sign() {
        let identity = [64, 1, 2, 3, 4, 5, 6];
        for sign in [0, 1] {
            let mut file = [0; SHORT_OPERATOR_BYTES];
            let sheet = [&identity[..], &[sign]].concat();
            assert_eq!(sheet_to_operator(&sheet, &mut file), Ok(0));
            let mut list = [9; 256];
            let empty = Letters {
                count: 0,
                letters: 0,
                loose: 0,
                sign,
            };
            assert_eq!(operator_to_gates(&file, &mut list), Ok(empty));
            assert_eq!(list, [9; 256]);
            let refused = operator_to_gates(&file, &mut list[..255]);
            assert_eq!(refused, Err(Refusal::BufferTooShort));
        }
    }

    /// A file of a power of two at every place of the diagonal, with entries of so many bytes.
    fn operator(entry_bytes: usize, exponent: u8, power: u32) -> Vec<u8> {
        let mut file = vec![exponent];
        for place in 0..36 {
            let entry = if place % 7 == 0 { 1i64 << power } else { 0 };
            file.extend_from_slice(&entry.to_le_bytes()[..entry_bytes]);
        }
        file
    }

    #[test]
    fn an_operator_has_a_short_file_and_a_long_one() {
        let identity = [64, 1, 2, 3, 4, 5, 6, 0, 9];
        for (entry_bytes, len, largest) in [(2, 73, 28), (4, 145, 60)] {
            for exponent in (0..=largest).step_by(2) {
                let file = operator(entry_bytes, exponent, u32::from(exponent) / 2);
                assert_eq!(file.len(), len);
                let mut sheet = [9; 9];
                let none = Cuts { count: 0, loose: 0 };
                assert_eq!(operator_to_sheet(&file, &mut sheet), Ok(none));
                assert_eq!(sheet, identity);
            }
            for exponent in largest + 1..=255 {
                let file = operator(entry_bytes, exponent, 0);
                let refused = operator_to_sheet(&file, &mut []);
                assert_eq!(refused, Err(Refusal::ExponentTooLarge));
            }
        }
        for len in (0..300).filter(|len| ![73, 145].contains(len)) {
            let file = vec![0; len];
            let refused = operator_to_gates(&file, &mut []);
            assert_eq!(refused, Err(Refusal::FileLength));
        }
        let refused = operator_to_sheet(&operator(4, 58, 30), &mut []);
        assert_eq!(refused, Err(Refusal::EntryTooLarge));
        let refused = operator_to_sheet(&operator(4, 60, 29), &mut []);
        assert_eq!(refused, Err(Refusal::NotOrthogonal));
    }

    #[test]
    fn a_file_is_as_long_as_its_count_says() {
        for count in 0..=MAX_COUNT {
            let list = b"ChH".repeat(count.into());
            let mut buffer = [9; LONG_OPERATOR_BYTES];
            let len = operator_bytes(count);
            let refused = gates_to_operator(&list, &mut buffer[..len - 1]);
            assert_eq!(refused, Err(Refusal::BufferTooShort));
            assert_eq!(buffer, [9; LONG_OPERATOR_BYTES]);
            assert_eq!(gates_to_operator(&list, &mut buffer), Ok(count));
            assert!(buffer[len..].iter().all(|&byte| byte == 9));
            let file = &buffer[..len];
            assert_eq!(file[0], count);

            let mut sheet = [9; MAX_SHEET];
            let cuts = operator_to_sheet(file, &mut sheet).expect("an accepted operator");
            assert_eq!(cuts.count, count);
            let sheet = &sheet[..8 + usize::from(count)];
            let mut back = [9; LONG_OPERATOR_BYTES];
            let refused = sheet_to_operator(sheet, &mut back[..len - 1]);
            assert_eq!(refused, Err(Refusal::BufferTooShort));
            assert_eq!(sheet_to_operator(sheet, &mut back), Ok(count));
            assert_eq!(back, buffer);
        }
        let deeper = b"ChH".repeat(usize::from(MAX_COUNT) + 1);
        let refused = gates_to_operator(&deeper, &mut []);
        assert_eq!(refused, Err(Refusal::BeginningTooDeep));
    }

    #[test]
    fn states_are_ordered_up_to_the_largest_count() {
        assert_eq!(states_to_order(60, 1000), Ok(120));
        assert_eq!(states_to_order(61, 0), Err(Refusal::OrderOutOfRange));
    }

    /// The bytes of a number at every place of the diagonal.
    fn diagonal(exponent: u8, re: i16, im: i16) -> [u8; UNITARY_BYTES] {
        let mut unitary = [0; UNITARY_BYTES];
        unitary[0] = exponent;
        for at in (1..UNITARY_BYTES).step_by(4 * 5) {
            unitary[at..at + 2].copy_from_slice(&re.to_le_bytes());
            unitary[at + 2..at + 4].copy_from_slice(&im.to_le_bytes());
        }
        unitary
    }

    #[test]
    fn a_unitary_has_a_power_of_omega() {
        let powers = [
            (0, 1, 0),
            (1, 1, 1),
            (0, 0, 1),
            (1, -1, 1),
            (0, -1, 0),
            (29, -16_384, -16_384),
            (28, 0, -16_384),
            (1, 1, -1),
        ];
        for (omega, (exponent, re, im)) in (0..).zip(powers) {
            let mut list = [9; 256];
            let empty = UnitaryLetters {
                count: 0,
                letters: 0,
                loose: 0,
                omega,
            };
            let unitary = diagonal(exponent, re, im);
            assert_eq!(unitary_to_gates(&unitary, &mut list), Ok(empty));
            let refused = unitary_to_gates(&unitary, &mut list[..255]);
            assert_eq!(refused, Err(Refusal::BufferTooShort));
            assert_eq!(list, [9; 256]);
        }
    }

    #[test]
    fn a_refused_unitary_is_not_cut() {
        let identity = diagonal(0, 1, 0);
        let refusals = [
            (identity[..64].to_vec(), Refusal::UnitaryShape),
            ([&identity[..], &[0]].concat(), Refusal::UnitaryShape),
            (diagonal(30, 32_767, 0).to_vec(), Refusal::UnitaryShape),
            (diagonal(255, 0, 0).to_vec(), Refusal::UnitaryShape),
            (diagonal(0, 1, 1).to_vec(), Refusal::UnitaryEntry),
            (
                diagonal(29, 16_384, -16_385).to_vec(),
                Refusal::UnitaryEntry,
            ),
            (diagonal(28, i16::MIN, 0).to_vec(), Refusal::UnitaryEntry),
            (diagonal(1, 1, 0).to_vec(), Refusal::NotUnitary),
            (diagonal(28, 0, 16_383).to_vec(), Refusal::NotUnitary),
        ];
        let mut out = [9; GATES_BUFFER];
        for (unitary, refusal) in refusals {
            assert_eq!(unitary_to_gates(&unitary, &mut out), Err(refusal));
            assert_eq!(unitary_to_gates(&unitary, &mut []), Err(refusal));
        }
        assert_eq!(out, [9; GATES_BUFFER]);
    }

    #[test]
    fn a_sheet_says_its_count() {
        let mut file = [9; LONG_OPERATOR_BYTES];
        for first in (0..=255).filter(|&first| first != 64) {
            let sheet = [first, 1, 2, 3, 4, 5, 6, 0];
            assert_eq!(
                sheet_to_operator(&sheet, &mut file),
                Err(Refusal::SheetCount)
            );
            assert_eq!(file, [9; LONG_OPERATOR_BYTES]);
        }
    }

    #[test]
    fn a_sheet_is_a_part_of_its_bundle() {
        let sheets = [
            [64, 1, 2, 3, 4, 5, 6, 0].as_slice(),
            &[65, 3, 1, 2, 3, 4, 5, 6, 0],
            &[66, 3, 13, 3, 130, 1, 4, 5, 6, 0],
        ];
        let trailer = [0, 0, 8, 0, 17, 0, 3, 0];
        let end_to_end = sheets.concat();
        let mut bundle = [9; 36];
        assert_eq!(sheets_to_bundle(&end_to_end, &mut bundle), Ok(35));
        assert_eq!(bundle[..27], end_to_end);
        assert_eq!(bundle[27..], [&trailer[..], &[9]].concat());

        let bundle = &bundle[..35];
        for (n, place) in [(0, 0..8), (1, 8..17), (2, 17..27)] {
            let part = bundle_sheet(bundle, n).unwrap();
            assert_eq!(part.as_ptr_range(), bundle[place].as_ptr_range());
        }
        for n in [3, 256, 1 << 16, 1 << 32, u64::MAX] {
            assert_eq!(bundle_sheet(bundle, n), Err(Refusal::NoSheet));
        }
        assert_eq!(bundle_sheet(&bundle[1..], 0), Err(Refusal::BundleSheets));
        assert_eq!(bundle_sheet(&bundle[..34], 0), Err(Refusal::BundleTrailer));
    }

    #[test]
    fn a_refused_bundle_is_not_written() {
        let mut out = [9; BUNDLE_BUFFER];
        let sheet = [64, 1, 2, 3, 4, 5, 6, 0];
        let refusals = [
            (sheet.repeat(MAX_SHEETS + 1), Refusal::BundleTrailer),
            (sheet[..7].to_vec(), Refusal::BundleSheets),
            ([&[125], &[1; 68][..]].concat(), Refusal::BundleSheets),
        ];
        for (sheets, refusal) in refusals {
            assert_eq!(sheets_to_bundle(&sheets, &mut out), Err(refusal));
        }
        let short = &mut out[..11];
        let refused = sheets_to_bundle(&sheet, short);
        assert_eq!(refused, Err(Refusal::BufferTooShort));
        assert_eq!(out, [9; BUNDLE_BUFFER]);
    }

    #[test]
    fn the_longest_bundle_fills_its_buffer() {
        let sheet = [&[124], &[1; MAX_SHEET - 1][..]].concat();
        let mut out = vec![9; BUNDLE_BUFFER];
        let written = sheets_to_bundle(&sheet.repeat(MAX_SHEETS), &mut out);
        assert_eq!(written, Ok(BUNDLE_BUFFER));
        assert_eq!(
            bundle_sheet(&out, 511),
            Ok(&out[511 * MAX_SHEET..512 * MAX_SHEET])
        );
        assert_eq!(bundle_sheet(&out, 512), Err(Refusal::NoSheet));
    }

    #[test]
    fn a_list_is_read_from_its_text() {
        let statements = [
            "cz q[0],q[1];\n",
            "h q[1];\n",
            "h q[0];\n",
            "s q[1];\n",
            "s q[0];\n",
            "cu1(pi/2) q[0],q[1];\n",
        ];
        let text = [FIRST_LINES, &statements.concat()].concat();
        let mut out = [9; 120];
        assert_eq!(gates_to_qasm(b"CSsHhZ", &mut out), Ok(text.len()));
        assert_eq!(out[..text.len()], *text.as_bytes());
        assert!(out[text.len()..].iter().all(|&byte| byte == 9));
        for text in [&text, &text.replace("q[0],q[1]", "q[1],q[0]")] {
            let mut list = [9; 7];
            assert_eq!(qasm_to_gates(text.as_bytes(), &mut list), Ok(6));
            assert_eq!(&list, b"CSsHhZ\x09");
        }
    }

    #[test]
    fn a_refused_list_is_not_written() {
        let mut out = vec![9; QASM_BUFFER];
        let refusals = [
            (vec![b'x'; MAX_LETTERS + 1], Refusal::TooManyLetters),
            (b"CHx".to_vec(), Refusal::UnknownLetter),
        ];
        for (list, refusal) in refusals {
            assert_eq!(gates_to_qasm(&list, &mut out), Err(refusal));
        }
        let short = &mut out[..54];
        assert_eq!(gates_to_qasm(b"H", short), Err(Refusal::BufferTooShort));
        assert!(out.iter().all(|&byte| byte == 9));
    }

    #[test]
    fn a_refused_text_is_not_read() {
        let full = "h q[0];\n".repeat(MAX_LETTERS);
        let mut out = [9; MAX_LETTERS];
        let mut read = |statements: &str, out_len: usize| {
            let text = [FIRST_LINES, &full, statements].concat();
            qasm_to_gates(text.as_bytes(), &mut out[..out_len])
        };
        for end in ["H q[0];\n", "h q[0];", "\n", "s q[1];\n\n", FIRST_LINES] {
            assert_eq!(read(end, MAX_LETTERS), Err(Refusal::NoStatement));
        }
        assert_eq!(read("s q[1];\n", 0), Err(Refusal::TooManyLetters));
        assert_eq!(read("", MAX_LETTERS - 1), Err(Refusal::BufferTooShort));
        assert_eq!(out, [9; MAX_LETTERS]);
    }

    #[test]
    fn the_longest_text_fills_its_buffer() {
        let mut text = vec![9; QASM_BUFFER];
        let written = gates_to_qasm(&[b'C'; MAX_LETTERS], &mut text);
        assert_eq!(written, Ok(QASM_BUFFER));
        let mut list = [9; MAX_LETTERS];
        assert_eq!(qasm_to_gates(&text, &mut list), Ok(MAX_LETTERS));
        assert_eq!(list, [b'C'; MAX_LETTERS]);
    }

    #[test]
    fn a_block_is_one_layer_above_those_that_it_waits_for() {
        let programs: [(&[u8], &[u8], u8); 6] = [
            (&[0, 1], &[0], 1),
            (&[0, 1, 30, 31], &[0, 0], 1),
            (&[0, 1, 1, 0], &[0, 1], 2),
            (&[0, 1, 1, 2, 2, 3], &[0, 1, 2], 3),
            (&[0, 1, 2, 3, 4, 5, 1, 2, 5, 31], &[0, 0, 0, 1, 1], 2),
            (&[0, 1, 1, 2, 3, 4, 4, 2, 0, 3], &[0, 1, 0, 2, 1], 3),
        ];
        for (blocks, layers, number) in programs {
            let mut out = [9; MAX_BLOCKS];
            assert_eq!(blocks_to_layers(blocks, &mut out), Ok(number));
            assert_eq!(out[..layers.len()], *layers);
            assert!(out[layers.len()..].iter().all(|&byte| byte == 9));
        }
    }

    #[test]
    fn a_program_has_at_most_64_layers() {
        let blocks = [31, 0].repeat(MAX_BLOCKS);
        let mut out = [9; MAX_BLOCKS + 1];
        assert_eq!(blocks_to_layers(&blocks, &mut out), Ok(64));
        assert!((0..64).eq(out[..MAX_BLOCKS].iter().copied()));
        assert_eq!(out[MAX_BLOCKS], 9);
    }

    #[test]
    fn a_refused_program_has_no_layers() {
        let refusals = [
            (vec![0], Refusal::ProgramLength),
            (vec![0, 1, QUBITS], Refusal::ProgramLength),
            ([0, 1].repeat(MAX_BLOCKS + 1), Refusal::ProgramLength),
            ([5, 5].repeat(MAX_BLOCKS + 1), Refusal::ProgramLength),
            (vec![5, 5], Refusal::BlockQubits),
            (vec![0, 1, QUBITS, 0], Refusal::BlockQubits),
            (vec![0, 1, 0, QUBITS], Refusal::BlockQubits),
            (vec![0, 255, 0, 1], Refusal::BlockQubits),
        ];
        let mut out = [9; MAX_BLOCKS + 1];
        for (blocks, refusal) in refusals {
            assert_eq!(blocks_to_layers(&blocks, &mut out), Err(refusal));
            assert_eq!(blocks_to_layers(&blocks, &mut []), Err(refusal));
        }
        let short = &mut out[..1];
        let refused = blocks_to_layers(&[0, 1, 2, 3], short);
        assert_eq!(refused, Err(Refusal::BufferTooShort));
        assert_eq!(out, [9; MAX_BLOCKS + 1]);
    }

    #[test]
    fn empty_slices_are_lent() {
        assert_eq!(operator_to_sheet(&[], &mut []), Err(Refusal::FileLength));
        assert_eq!(operator_to_gates(&[], &mut []), Err(Refusal::FileLength));
        assert_eq!(
            gates_to_operator(&[], &mut []),
            Err(Refusal::BufferTooShort)
        );
        assert_eq!(sheet_to_operator(&[], &mut []), Err(Refusal::SheetLength));
        assert_eq!(unitary_to_gates(&[], &mut []), Err(Refusal::UnitaryShape));
        let mut out = [0; SHORT_OPERATOR_BYTES];
        assert_eq!(gates_to_operator(&[], &mut out), Ok(0));
        assert_eq!(bundle_sheet(&[], 0), Err(Refusal::BundleTrailer));
        assert_eq!(sheets_to_bundle(&[], &mut []), Err(Refusal::BufferTooShort));
        let mut out = [9; 3];
        assert_eq!(sheets_to_bundle(&[], &mut out), Ok(2));
        assert_eq!(out, [0, 0, 9]);
        assert_eq!(bundle_sheet(&out[..2], 0), Err(Refusal::NoSheet));
        assert_eq!(gates_to_qasm(&[], &mut []), Err(Refusal::BufferTooShort));
        assert_eq!(qasm_to_gates(&[], &mut []), Err(Refusal::NoStatement));
        assert_eq!(qasm_to_gates(FIRST_LINES.as_bytes(), &mut []), Ok(0));
        assert_eq!(blocks_to_layers(&[], &mut []), Ok(0));
        assert_eq!(
            blocks_to_layers(&[0, 1], &mut []),
            Err(Refusal::BufferTooShort)
        );
    }
}
