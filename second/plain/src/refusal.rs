//! The numbers of the refusals, in the order of document 01, "What can be turned away"; of document
//! 02, 16 follows 10 (P4), 15 follows 12 (P2), and 17 to 19 (P5), 20 to 22 (P7), 23 (P8), 24 and 25 (P13) come
//! last. The limits are those of P10.

/// An operator file whose length is neither 73 nor 145.
pub const FILE_LENGTH: u8 = 1;
/// An operator file of 73 bytes with k above 28, or of 145 bytes with k above 60.
pub const EXPONENT_TOO_LARGE: u8 = 2;
/// An entry whose square exceeds 2 to the power k.
pub const ENTRY_TOO_LARGE: u8 = 3;
/// A matrix that is not orthogonal.
pub const NOT_ORTHOGONAL: u8 = 4;
/// A matrix that is orthogonal and not proper.
pub const NOT_PROPER: u8 = 5;
/// An output buffer that is too short.
pub const BUFFER_TOO_SHORT: u8 = 6;
/// A gate list of more than 16,384 letters, or a text of more than 16,384 statements.
pub const TOO_MANY_LETTERS: u8 = 7;
/// A byte that is no letter of the table.
pub const UNKNOWN_LETTER: u8 = 8;
/// A beginning of a gate list whose product has a least exponent above 60.
pub const BEGINNING_TOO_DEEP: u8 = 9;
/// A sheet of fewer than 8 or more than 68 bytes.
pub const SHEET_LENGTH: u8 = 10;
/// A first byte that is not the length of the sheet plus 56.
pub const SHEET_COUNT: u8 = 16;
/// A generator byte outside 1 to 15, or a column byte outside 1 to 6 and 129 to 134.
pub const SHEET_BYTE: u8 = 11;
/// Six columns that are no Clifford.
pub const NO_CLIFFORD: u8 = 12;
/// A last byte above 1, or a negative column 1.
pub const SHEET_SIGN: u8 = 15;
/// A sheet whose operator has another sheet.
pub const OTHER_SHEET: u8 = 13;
/// An order with t above 60 or p above 1000.
pub const ORDER_OUT_OF_RANGE: u8 = 14;
/// A unitary whose length is not 65, or with k above 29.
pub const UNITARY_SHAPE: u8 = 17;
/// An entry of a unitary whose squared size exceeds 2 to the power k.
pub const UNITARY_ENTRY: u8 = 18;
/// A matrix that is not unitary.
pub const NOT_UNITARY: u8 = 19;
/// A bundle with no trailer of a fitting length, or of more than 512 sheets.
pub const BUNDLE_TRAILER: u8 = 20;
/// A sheet's first byte below 64, offsets that do not follow the sheets, or sheets that do not end
/// where the trailer starts; bytes to bundle that are not sheets end to end.
pub const BUNDLE_SHEETS: u8 = 21;
/// A sheet that the bundle does not have.
pub const NO_SHEET: u8 = 22;
/// A line of a text that is no statement, one of the first three lines missing, repeated or out of its
/// place, or a last line with no line feed.
pub const NO_STATEMENT: u8 = 23;
/// A program of an odd number of bytes, or of more than 64 blocks.
pub const PROGRAM_LENGTH: u8 = 24;
/// A qubit above 31, or a block that names one qubit twice.
pub const BLOCK_QUBITS: u8 = 25;
