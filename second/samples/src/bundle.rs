//! Bundles in pieces, each of which can be damaged by itself.

use plain::sheet::ABOVE_LENGTH;

use crate::Random;

/// The pieces of a bundle, in the order of their bytes.
#[derive(Clone, Debug)]
pub struct Bundle {
    pub sheets: Vec<Vec<u8>>,
    pub offsets: Vec<u16>,
    pub number: u16,
}

impl Bundle {
    /// The bundle of the sheets.
    pub fn of(sheets: Vec<Vec<u8>>) -> Bundle {
        let mut bundle = Bundle {
            sheets,
            offsets: Vec::new(),
            number: 0,
        };
        bundle.point_back();
        bundle
    }

    /// Makes the trailer follow the sheets. Of offsets and of the number it has the low 16 bits, so
    /// where more are needed it points elsewhere.
    pub fn point_back(&mut self) {
        self.offsets.clear();
        let mut offset = 0;
        for sheet in &self.sheets {
            self.offsets.push(offset as u16);
            offset += sheet.len();
        }
        self.number = self.sheets.len() as u16;
    }

    /// All bytes.
    pub fn bytes(&self) -> Vec<u8> {
        let mut bytes = self.sheets.concat();
        let trailer = self.offsets.iter().chain([&self.number]);
        bytes.extend(trailer.flat_map(|number| number.to_le_bytes()));
        bytes
    }
}

/// Random bytes behind the first byte of a sheet of their length, or its low eight bits; the length is
/// not 0.
pub fn part(random: &mut Random, len: usize) -> Vec<u8> {
    let mut part = random.bytes(len);
    part[0] = (len + ABOVE_LENGTH) as u8;
    part
}

#[cfg(test)]
mod tests {
    use super::*;
    use plain::bundle::MAX_PART;
    use plain::sheet::MIN_SHEET;

    #[test]
    fn a_bundle_has_its_sheets() {
        let mut random = Random::new(9);
        let parts: Vec<_> = (MIN_SHEET..=MAX_PART)
            .map(|len| part(&mut random, len))
            .collect();
        for number in 0..=parts.len() {
            let sheets = &parts[..number];
            let bundle = Bundle::of(sheets.to_vec()).bytes();
            let read = plain::bundle::read(&bundle).expect("a bundle");
            assert_eq!(read, sheets);
        }
    }

    #[test]
    fn pieces_are_laid_end_to_end() {
        let bundle = Bundle {
            sheets: vec![vec![1, 2], vec![3]],
            offsets: vec![0x0504, 0x0706],
            number: 0x0908,
        };
        assert_eq!(bundle.bytes(), [1, 2, 3, 4, 5, 6, 7, 8, 9]);
    }

    #[test]
    fn offsets_have_their_low_16_bits() {
        let bundle = Bundle::of(vec![vec![0; 40_000]; 3]);
        assert_eq!(bundle.offsets, [0, 40_000, 14_464]);
    }
}
