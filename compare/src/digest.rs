//! A digest of answers in their order, so that those of two builds of the proved functions can be compared.

use std::fmt::{self, Display, Formatter};

/// FNV-1a, of 64 bits.
pub struct Digest(u64);

impl Digest {
    pub fn new() -> Digest {
        Digest(0xcbf2_9ce4_8422_2325)
    }

    pub fn fold_bytes(&mut self, bytes: &[u8]) {
        self.0 = bytes.iter().fold(self.0, |sum, byte| (sum ^ u64::from(*byte)).wrapping_mul(0x100_0000_01b3));
    }

    pub fn fold(&mut self, words: &[u64]) {
        words.iter().for_each(|word| self.fold_bytes(&word.to_ne_bytes()));
    }

    pub fn value(&self) -> u64 {
        self.0
    }
}

impl Display for Digest {
    fn fmt(&self, to: &mut Formatter) -> fmt::Result {
        write!(to, "{:016x}", self.0)
    }
}
