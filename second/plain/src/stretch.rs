//! Stretches of a gate list, by document 02, P9: what stands before the first C, between two letters C,
//! and after the last. A stretch may be empty.

use crate::gate::image;
use crate::matrix::SIZE;
use crate::operator::Operator;

/// The stretches of a list, in order; there is one more than letters C.
pub fn stretches(list: &[u8]) -> impl Iterator<Item = &[u8]> {
    list.split(|&letter| letter == b'C')
}

/// The number of letters Z.
pub fn cz_gates(list: &[u8]) -> usize {
    list.iter().filter(|&&letter| letter == b'Z').count()
}

/// The product of letters, all of which are in the table; the exponents add.
pub fn product(letters: &[u8]) -> Operator {
    let images = letters.iter().map(|&letter| image(letter));
    images.fold(Operator::IDENTITY, |product, image| {
        product.times(image.expect("a letter of the table"))
    })
}

/// How many of the indices 1 to 3 a Clifford sends to 4 to 6.
pub fn crossings(clifford: &Operator) -> usize {
    let (_, lower) = clifford.matrix.split_at(SIZE / 2);
    let entries = lower.iter().flat_map(|row| &row[..SIZE / 2]);
    entries.filter(|&&entry| entry != 0).count()
}

#[cfg(test)]
mod tests {
    use super::*;
    use crate::gate::clifford;

    #[test]
    fn there_is_one_more_stretch_than_letters_c() {
        let list = |list| stretches(list).collect::<Vec<&[u8]>>();
        assert_eq!(list(b""), [b""]);
        assert_eq!(list(b"C"), [b"", b""]);
        assert_eq!(list(b"hZCCs"), [b"hZ".as_slice(), b"", b"s"]);
    }

    #[test]
    fn indices_cross_where_columns_1_to_3_meet_rows_4_to_6() {
        assert_eq!(crossings(&Operator::IDENTITY), 0);
        assert_eq!(crossings(&clifford([-2, 3, 1, 4, -6, 5])), 0);
        assert_eq!(crossings(&clifford([2, 4, 1, -3, 6, 5])), 1);
        assert_eq!(crossings(&clifford([-6, 4, 1, 2, 3, 5])), 2);
        assert_eq!(crossings(&clifford([4, 5, 6, 1, 2, -3])), 3);
        for letter in *b"HhSs" {
            assert_eq!(crossings(&product(&[letter])), 0);
        }
        assert_eq!(crossings(&product(b"Z")), 1);
        assert_eq!(crossings(&product(b"ZZ")), 0);
    }
}
