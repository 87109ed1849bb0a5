//! The desk's program.
//!
//! Document 01, "Operations": "A program reads standard input (at most 65,536
//! bytes; longer input counts as 103), books it into an empty ledger of 512
//! entries with retailer 999999999 and distributor 0040, and prints one line".

use crate::booking::{book, Answer};
use crate::check::Refusal;
use crate::codes::rejection_code;
use crate::ledger::Entry;

/// The greatest number of bytes of input.
pub const MOST_INPUT: usize = 65_536;

const ENTRIES: usize = 512;
const RETAILER: u64 = 999_999_999;
const DISTRIBUTORS: &[u8] = b"0040";

/// The line printed for an input: ""accepted", added, held; or "rejected",
/// number, code (0 for house numbers), line; parted by single spaces, byte 10
/// last."
pub fn answer_line(input: &[u8]) -> String {
    match answer(input) {
        Answer::Booked { added, held } => format!("accepted {added} {held}\n"),
        Answer::Refused(Refusal { number, line }) => {
            let code = rejection_code(number.into()).unwrap_or(0);
            format!("rejected {number} {code} {line}\n")
        }
    }
}

fn answer(input: &[u8]) -> Answer {
    if input.len() > MOST_INPUT {
        return Answer::Refused(Refusal::house(103));
    }
    let mut run = [Entry::default(); ENTRIES];
    book(RETAILER, DISTRIBUTORS, input, &mut run, 0)
}

#[cfg(test)]
mod tests {
    use super::*;

    /// "Empty input prints `rejected 2 6002 1`."
    #[test]
    fn empty_input() {
        assert_eq!(answer_line(b""), "rejected 2 6002 1\n");
    }

    #[test]
    fn long_input() {
        assert_eq!(answer_line(&[b'\n'; MOST_INPUT + 1]), "rejected 103 0 0\n");
        assert_eq!(answer_line(&[b'A'; MOST_INPUT]), "rejected 2 6002 1\n");
    }
}
