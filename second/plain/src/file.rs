//! The two kinds of operator file, by document 01, "Operators", and document 02, P10: the exponent, then the
//! 36 entries row by row, low byte first, two's complement. The kinds differ in how wide an entry is, and how
//! large the exponent may be.

use crate::matrix::SIZE;
use crate::operator::Operator;

/// The largest exponent of a short file.
pub const MAX_SHORT_EXPONENT: u8 = 28;

/// The largest exponent of a long file, and with it the largest of all, and the largest count.
pub const MAX_EXPONENT: u8 = 60;

/// The length of a short file, with entries of 16 bits.
pub const SHORT_BYTES: usize = 1 + size_of::<i16>() * SIZE * SIZE;

/// The length of a long file, with entries of 32 bits.
pub const LONG_BYTES: usize = 1 + size_of::<i32>() * SIZE * SIZE;

/// A kind of operator file.
#[derive(Clone, Copy, Debug, PartialEq, Eq)]
pub enum Kind {
    Short,
    Long,
}

impl Kind {
    /// Both kinds, the one that is written where it suffices first.
    pub const ALL: [Kind; 2] = [Kind::Short, Kind::Long];

    /// The kind of the files of this length, if there is one.
    pub fn of_length(len: usize) -> Option<Kind> {
        Kind::ALL.into_iter().find(|kind| kind.bytes() == len)
    }

    /// The kind that is written for an operator of this exponent.
    pub fn written(exponent: u8) -> Kind {
        if exponent <= MAX_SHORT_EXPONENT {
            Kind::Short
        } else {
            Kind::Long
        }
    }

    /// The length of a file.
    pub fn bytes(self) -> usize {
        match self {
            Kind::Short => SHORT_BYTES,
            Kind::Long => LONG_BYTES,
        }
    }

    /// The largest exponent that is read.
    pub fn max_exponent(self) -> u8 {
        match self {
            Kind::Short => MAX_SHORT_EXPONENT,
            Kind::Long => MAX_EXPONENT,
        }
    }

    /// The bytes of an entry.
    fn entry_bytes(self) -> usize {
        match self {
            Kind::Short => size_of::<i16>(),
            Kind::Long => size_of::<i32>(),
        }
    }

    /// The lowest and the highest entry that there is room for.
    pub fn range(self) -> (i64, i64) {
        match self {
            Kind::Short => (i16::MIN.into(), i16::MAX.into()),
            Kind::Long => (i32::MIN.into(), i32::MAX.into()),
        }
    }

    /// Takes a file of this kind apart.
    pub fn decode(self, file: &[u8]) -> Operator {
        let (&exponent, entries) = file.split_first().expect("a file of this kind");
        let entry = |at: usize| match self {
            Kind::Short => i16::from_le_bytes(chunk(entries, at)).into(),
            Kind::Long => i32::from_le_bytes(chunk(entries, at)).into(),
        };
        let row = |row: usize| std::array::from_fn(|column| entry(SIZE * row + column));
        Operator {
            matrix: std::array::from_fn(row),
            exponent,
        }
    }

    /// Writes the file over the whole of `out`, which has its length. Of an entry that there is no room for
    /// it has the low bits.
    pub fn write(self, operator: &Operator, out: &mut [u8]) {
        let (exponent, bytes) = out.split_first_mut().expect("room for a file");
        *exponent = operator.exponent;
        let entries = operator.matrix.as_flattened();
        for (bytes, entry) in bytes.chunks_exact_mut(self.entry_bytes()).zip(entries) {
            bytes.copy_from_slice(&entry.to_le_bytes()[..self.entry_bytes()]);
        }
    }

    /// The file of this kind.
    pub fn file(self, operator: &Operator) -> Vec<u8> {
        let mut file = vec![0; self.bytes()];
        self.write(operator, &mut file);
        file
    }
}

/// The bytes of the entry at a place, counted from 0.
fn chunk<const N: usize>(entries: &[u8], at: usize) -> [u8; N] {
    let (chunks, _) = entries.as_chunks();
    chunks[at]
}

#[cfg(test)]
mod tests {
    use super::*;

    #[test]
    fn a_file_has_low_bytes_first_and_signs() {
        let mut operator = Operator::IDENTITY;
        operator.matrix[0][1] = -2;
        operator.matrix[5][5] = 0x1234;
        operator.exponent = 7;
        let short = Kind::Short.file(&operator);
        assert_eq!(short[..5], [7, 1, 0, 254, 255]);
        assert_eq!(short[71..], [0x34, 0x12]);
        assert_eq!(Kind::Short.decode(&short), operator);
        operator.matrix[5][5] = -0x1234_5678;
        let long = Kind::Long.file(&operator);
        assert_eq!(long[..9], [7, 1, 0, 0, 0, 254, 255, 255, 255]);
        assert_eq!(long[141..], [0x88, 0xA9, 0xCB, 0xED]);
        assert_eq!(Kind::Long.decode(&long), operator);
    }

    #[test]
    fn the_ends_of_the_range_have_room() {
        for kind in Kind::ALL {
            let (lowest, highest) = kind.range();
            for (entry, has_room) in [
                (lowest, true),
                (highest, true),
                (lowest - 1, false),
                (highest + 1, false),
            ] {
                let mut operator = Operator::IDENTITY;
                operator.matrix[2][4] = entry;
                let read = kind.decode(&kind.file(&operator));
                assert_eq!(read == operator, has_room);
            }
        }
    }

    #[test]
    fn a_kind_is_known_by_its_length() {
        let lengths = (0..300).filter(|&len| Kind::of_length(len).is_some());
        assert_eq!(lengths.collect::<Vec<_>>(), [73, 145]);
        for kind in Kind::ALL {
            assert_eq!(Kind::of_length(kind.bytes()), Some(kind));
        }
    }

    #[test]
    fn the_short_kind_is_written_where_it_suffices() {
        for exponent in 0..=MAX_EXPONENT {
            let fitting = Kind::ALL
                .into_iter()
                .find(|kind| exponent <= kind.max_exponent());
            assert_eq!(Some(Kind::written(exponent)), fitting);
        }
    }
}
