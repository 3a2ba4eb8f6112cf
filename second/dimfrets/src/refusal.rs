//! The refusals of document 01, "What can be turned away", and of document 02, with their numbers.

use std::fmt;

/// Why a call was turned away. The discriminants are the numbers of documents 01 and 02.
#[derive(Clone, Copy, Debug, PartialEq, Eq, PartialOrd, Ord, Hash)]
#[repr(u8)]
pub enum Refusal {
    FileLength = 1,
    ExponentTooLarge = 2,
    EntryTooLarge = 3,
    NotOrthogonal = 4,
    NotProper = 5,
    BufferTooShort = 6,
    TooManyLetters = 7,
    UnknownLetter = 8,
    BeginningTooDeep = 9,
    SheetLength = 10,
    SheetByte = 11,
    NoClifford = 12,
    OtherSheet = 13,
    OrderOutOfRange = 14,
    SheetSign = 15,
    SheetCount = 16,
    UnitaryShape = 17,
    UnitaryEntry = 18,
    NotUnitary = 19,
    BundleTrailer = 20,
    BundleSheets = 21,
    NoSheet = 22,
    NoStatement = 23,
    ProgramLength = 24,
    BlockQubits = 25,
}

impl Refusal {
    /// All refusals, in the order of their numbers.
    pub const ALL: [Refusal; 25] = [
        Refusal::FileLength,
        Refusal::ExponentTooLarge,
        Refusal::EntryTooLarge,
        Refusal::NotOrthogonal,
        Refusal::NotProper,
        Refusal::BufferTooShort,
        Refusal::TooManyLetters,
        Refusal::UnknownLetter,
        Refusal::BeginningTooDeep,
        Refusal::SheetLength,
        Refusal::SheetByte,
        Refusal::NoClifford,
        Refusal::OtherSheet,
        Refusal::OrderOutOfRange,
        Refusal::SheetSign,
        Refusal::SheetCount,
        Refusal::UnitaryShape,
        Refusal::UnitaryEntry,
        Refusal::NotUnitary,
        Refusal::BundleTrailer,
        Refusal::BundleSheets,
        Refusal::NoSheet,
        Refusal::NoStatement,
        Refusal::ProgramLength,
        Refusal::BlockQubits,
    ];

    /// The number in documents 01 and 02, 1 to 25.
    pub fn number(self) -> u8 {
        self as u8
    }

    /// The refusal with a number of 1 to 25.
    pub fn from_number(number: u8) -> Option<Refusal> {
        let mut all = Refusal::ALL.into_iter();
        all.find(|refusal| refusal.number() == number)
    }

    fn words(self) -> &'static str {
        match self {
            Refusal::FileLength => "the operator file is neither 73 nor 145 bytes long",
            Refusal::ExponentTooLarge => {
                "the exponent of the operator file is above 28 in 73 bytes, or above 60 in 145"
            },
            Refusal::EntryTooLarge => "the square of an entry exceeds 2 to the power k",
            Refusal::NotOrthogonal => "the operator is not orthogonal",
            Refusal::NotProper => "the operator is orthogonal, but not proper",
            Refusal::BufferTooShort => "the output buffer is too short",
            Refusal::TooManyLetters => {
                "the gate list has more than 16,384 letters, or the text more than 16,384 statements"
            }
            Refusal::UnknownLetter => "a byte of the gate list is no letter of the table",
            Refusal::BeginningTooDeep => {
                "the product of a beginning of the gate list has a least exponent above 60"
            }
            Refusal::SheetLength => "the sheet has fewer than 8 or more than 68 bytes",
            Refusal::SheetByte => "a byte of the sheet is no generator or no column",
            Refusal::NoClifford => "the six columns of the sheet are no Clifford",
            Refusal::OtherSheet => "cutting the sheet's operator gives another sheet",
            Refusal::OrderOutOfRange => "t is above 60 or the spoilage above 1000 thousandths",
            Refusal::SheetSign => "the last byte of the sheet is above 1, or column 1 is negative",
            Refusal::SheetCount => "the first byte of the sheet is not its length plus 56",
            Refusal::UnitaryShape => "the unitary is not 65 bytes long, or its exponent is above 29",
            Refusal::UnitaryEntry => {
                "the squared size of an entry of the unitary exceeds 2 to the power k"
            }
            Refusal::NotUnitary => "the matrix is not unitary",
            Refusal::BundleTrailer => {
                "the bundle has no trailer of a fitting length, or more than 512 sheets"
            }
            Refusal::BundleSheets => {
                "the sheets do not lie end to end, or the offsets of the bundle do not follow them"
            }
            Refusal::NoSheet => "the bundle has no sheet of that number",
            Refusal::NoStatement => {
                "a line of the text is no statement, one of the first three is missing, repeated or \
                 out of its place, or the last has no line feed"
            }
            Refusal::ProgramLength => {
                "the program has an odd number of bytes, or more than 64 blocks"
            }
            Refusal::BlockQubits => "a block names a qubit above 31, or one qubit twice",
        }
    }
}

impl fmt::Display for Refusal {
    fn fmt(&self, f: &mut fmt::Formatter<'_>) -> fmt::Result {
        f.write_str(self.words())
    }
}

impl std::error::Error for Refusal {}

#[cfg(test)]
mod tests {
    use super::*;

    #[test]
    fn numbers_lead_to_their_refusals() {
        for (number, refusal) in (1..=25).zip(Refusal::ALL) {
            assert_eq!(refusal.number(), number);
            assert_eq!(Refusal::from_number(number), Some(refusal));
        }
        for number in [0].into_iter().chain(26..=255) {
            assert_eq!(Refusal::from_number(number), None);
        }
    }
}
