//! Counts inputs on which both sides have the same answer.

use crate::digest::Digest;
use std::fmt::Debug;

pub struct Tally {
    inputs: u64,
    accepted: u64,
}

impl Tally {
    pub fn new() -> Tally {
        Tally { inputs: 0, accepted: 0 }
    }

    /// Counts an input on which both sides must have the same answer.
    pub fn hold<T: PartialEq + Debug>(&mut self, what: &str, input: &dyn Debug, proved: T, expected: T, accepted: bool) {
        assert!(proved == expected, "{what} of {input:?}: proved {proved:?}, reference {expected:?}");
        self.inputs += 1;
        self.accepted += u64::from(accepted);
    }

    pub fn report(self, what: &str) -> u64 {
        println!("{what}: {} inputs, {} accepted", self.inputs, self.accepted);
        self.inputs
    }

    /// The same, with the digest of what the proved functions answered.
    pub fn report_with(self, what: &str, digest: &Digest) -> u64 {
        println!("{what}: {} inputs, {} accepted, digest {digest}", self.inputs, self.accepted);
        self.inputs
    }
}
