//! The CS cutter in plain Rust: operators, sheets and gate lists, four-by-four unitaries, bundles of
//! sheets, gate lists as OpenQASM 2.0 text, the list of short sheets, the layers of a program, and the states
//! to order. Every definition, number and order of refusals is that of document 01, or of document 02 where
//! that is later.
//!
//! A refusal is answered by its number (see [`refusal`]); it leaves every byte of the output as it
//! was. On success the bytes past the output keep theirs too.

#![forbid(unsafe_code)]

pub mod bundle;
pub mod file;
pub mod form;
pub mod gate;
pub mod generator;
pub mod layer;
pub mod matrix;
pub mod omega;
pub mod operator;
pub mod qasm;
pub mod refusal;
pub mod sheet;
pub mod short;
pub mod stretch;
pub mod unitary;
pub mod words;

use std::cmp::Ordering;

use file::{Kind, MAX_EXPONENT};
use gate::{LETTERS_PER_COUNT, MAX_LETTERS};
use operator::Operator;
use sheet::Sheet;
use unitary::Unitary;

/// The largest spoilage, in thousandths.
pub const MAX_SPOILAGE: u64 = 1000;

/// What cutting an operator answers: the count, and L, the number of cuts whose rows grouped as 2
/// and 4.
#[derive(Clone, Copy, Debug, PartialEq, Eq)]
pub struct Cuts {
    pub count: u8,
    pub loose: u8,
}

/// What cutting an operator into gates answers: the count, the number of letters written, L as for a
/// sheet, and the sign, 0 if the letters multiply to the operator and 1 if to its negative.
#[derive(Clone, Copy, Debug, PartialEq, Eq)]
pub struct Letters {
    pub count: u8,
    pub letters: usize,
    pub loose: u8,
    pub sign: u8,
}

/// What cutting a unitary into gates answers: the count, the number of letters written and L as for its
/// six-by-six form, and the power of ω, from 0 to 7, that makes the product of the plain matrices the
/// unitary.
#[derive(Clone, Copy, Debug, PartialEq, Eq)]
pub struct UnitaryLetters {
    pub count: u8,
    pub letters: usize,
    pub loose: u8,
    pub omega: u8,
}

/// Cuts an operator file into its sheet; answers the count and L.
pub fn operator_to_sheet(file: &[u8], out: &mut [u8]) -> Result<Cuts, u8> {
    let (sheet, loose) = Sheet::cut_with_loose(Operator::read(file)?);
    let out = lend(out, sheet.size())?;
    sheet.write(out);
    let count = sheet.count();
    Ok(Cuts { count, loose })
}

/// Cuts an operator file into a gate list with the fewest Z in each stretch. Its letters multiply to the
/// operator, or to its negative; the sign that is answered says to which.
pub fn operator_to_gates(file: &[u8], out: &mut [u8]) -> Result<Letters, u8> {
    let (sheet, loose) = Sheet::cut_with_loose(Operator::read(file)?);
    let out = lend(out, LETTERS_PER_COUNT * (sheet.generators.len() + 1))?;
    let (letters, sign) = words::write_gates(&sheet, out);
    Ok(Letters {
        count: sheet.count(),
        letters,
        loose,
        sign,
    })
}

/// Cuts a unitary into the gate list of its six-by-six form, of the one whose sheet has the last byte 0. ω
/// to the power that is answered, times the plain matrices of the letters, is the unitary.
pub fn unitary_to_gates(bytes: &[u8], out: &mut [u8]) -> Result<UnitaryLetters, u8> {
    let unitary = Unitary::read(bytes)?;
    let (mut sheet, loose) = Sheet::cut_with_loose(form::of_unitary(&unitary));
    sheet.negative = false;
    let out = lend(out, LETTERS_PER_COUNT * (sheet.generators.len() + 1))?;
    let (letters, _) = words::write_gates(&sheet, out);
    let product = Unitary::product(&out[..letters]);
    let omega = unitary.power_of_omega_from(&product);
    Ok(UnitaryLetters {
        count: sheet.count(),
        letters,
        loose,
        omega: omega.expect("the letters give the unitary up to a power of omega"),
    })
}

/// Multiplies a gate list, writes the operator file and answers the operator's count.
pub fn gates_to_operator(list: &[u8], out: &mut [u8]) -> Result<u8, u8> {
    if list.len() > MAX_LETTERS {
        return Err(refusal::TOO_MANY_LETTERS);
    }
    let mut product = Operator::IDENTITY;
    for &letter in list {
        let image = gate::image(letter).ok_or(refusal::UNKNOWN_LETTER)?;
        product = product.times(image).reduced();
        if product.exponent > MAX_EXPONENT {
            return Err(refusal::BEGINNING_TOO_DEEP);
        }
    }
    write_operator(&product, out)
}

/// Reads a sheet, writes the file of its operator and answers the count.
pub fn sheet_to_operator(sheet: &[u8], out: &mut [u8]) -> Result<u8, u8> {
    let sheet = Sheet::read(sheet)?;
    let operator = sheet.operator().reduced();
    if Sheet::cut(operator) != sheet {
        return Err(refusal::OTHER_SHEET);
    }
    write_operator(&operator, out)
}

/// The number of CS states to order for the count `t` and a spoilage of `p` thousandths, which is
/// rounded to the nearest whole state, an exact half to the even one.
pub fn states_to_order(t: u64, p: u64) -> Result<u64, u8> {
    if t > u64::from(MAX_EXPONENT) || p > MAX_SPOILAGE {
        return Err(refusal::ORDER_OUT_OF_RANGE);
    }
    Ok(t + nearest(t * p))
}

/// Sheet `n` of a bundle, counted from 0, as that part of the bundle; of the sheet itself the first
/// byte alone is looked at.
pub fn bundle_sheet(bundle: &[u8], n: u64) -> Result<&[u8], u8> {
    let sheets = bundle::read(bundle)?;
    let sheet = usize::try_from(n).ok().and_then(|n| sheets.get(n));
    sheet.copied().ok_or(refusal::NO_SHEET)
}

/// Writes the bundle of sheets that lie end to end and answers its number of bytes; of each sheet the
/// first byte alone is looked at.
pub fn sheets_to_bundle(sheets: &[u8], out: &mut [u8]) -> Result<usize, u8> {
    write_bytes(&bundle::of_sheets(sheets)?, out)
}

/// Writes a gate list as OpenQASM 2.0 text and answers the number of bytes; how deep the list goes is
/// not looked at.
pub fn gates_to_qasm(list: &[u8], out: &mut [u8]) -> Result<usize, u8> {
    write_bytes(qasm::of_list(list)?.as_bytes(), out)
}

/// Reads OpenQASM 2.0 text, writes its gate list and answers the number of letters.
pub fn qasm_to_gates(text: &[u8], out: &mut [u8]) -> Result<usize, u8> {
    write_bytes(&qasm::read(text)?, out)
}

/// Writes the layer of each block of a program and answers how many layers there are.
pub fn blocks_to_layers(program: &[u8], out: &mut [u8]) -> Result<u8, u8> {
    let layers = layer::of_blocks(layer::read(program)?);
    write_bytes(&layers, out)?;
    Ok(layer::different(&layers))
}

/// So many thousandths as whole states: of the two around them the nearer one, and of two that are
/// equally near the even one.
fn nearest(thousandths: u64) -> u64 {
    let below = thousandths / 1000;
    let above = below + 1;
    let distance = |states: u64| (1000 * states).abs_diff(thousandths);
    match distance(below).cmp(&distance(above)) {
        Ordering::Less => below,
        Ordering::Equal if below % 2 == 0 => below,
        Ordering::Equal | Ordering::Greater => above,
    }
}

/// Writes a least-exponent operator, in a short file where that suffices; its exponent is the count, for a
/// cut lowers it by one.
fn write_operator(operator: &Operator, out: &mut [u8]) -> Result<u8, u8> {
    let kind = Kind::written(operator.exponent);
    kind.write(operator, lend(out, kind.bytes())?);
    Ok(operator.exponent)
}

/// Writes the bytes at the start of a buffer and answers how many there are.
fn write_bytes(bytes: &[u8], out: &mut [u8]) -> Result<usize, u8> {
    lend(out, bytes.len())?.copy_from_slice(bytes);
    Ok(bytes.len())
}

/// The first `len` bytes of a buffer, if it has as many.
fn lend(out: &mut [u8], len: usize) -> Result<&mut [u8], u8> {
    out.get_mut(..len).ok_or(refusal::BUFFER_TOO_SHORT)
}
