//! Lent buffers: random bytes with guards around them, and a memory of what they held.

use samples::Random;

/// The number of guard bytes on each side.
const GUARD: usize = 64;

/// A buffer in the middle of a larger one.
#[derive(Clone, Debug)]
pub struct Lent {
    bytes: Vec<u8>,
    earlier: Vec<u8>,
}

impl Lent {
    /// A buffer of random bytes.
    pub fn new(random: &mut Random, len: usize) -> Lent {
        let bytes = random.bytes(len + 2 * GUARD);
        let earlier = bytes.clone();
        Lent { bytes, earlier }
    }

    /// A buffer that holds the given bytes. Every other time a line feed stands behind them, which would
    /// end a last line.
    pub fn holding(random: &mut Random, bytes: &[u8]) -> Lent {
        let mut lent = Lent::new(random, bytes.len());
        lent.middle_mut().copy_from_slice(bytes);
        let behind = &mut lent.bytes[GUARD + bytes.len()];
        if *behind < 128 {
            *behind = b'\n';
        }
        lent.earlier.clone_from(&lent.bytes);
        lent
    }

    /// The bytes that are lent.
    pub fn middle(&self) -> &[u8] {
        &self.bytes[GUARD..self.bytes.len() - GUARD]
    }

    /// The bytes that are lent, to be written.
    pub fn middle_mut(&mut self) -> &mut [u8] {
        let end = self.bytes.len() - GUARD;
        &mut self.bytes[GUARD..end]
    }

    /// Whether nothing but the first `written` of the lent bytes has changed, guards included.
    pub fn unchanged_past(&self, written: usize) -> bool {
        let past = GUARD + written;
        self.bytes[..GUARD] == self.earlier[..GUARD] && self.bytes[past..] == self.earlier[past..]
    }

    /// Whether both hold the same bytes, guards included.
    pub fn same(&self, other: &Lent) -> bool {
        self.bytes == other.bytes
    }
}
