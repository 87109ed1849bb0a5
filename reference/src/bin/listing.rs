//! Prints the rejection codes of A5.24, each with the tests that have it, and
//! then the numbers that are no tests.

use std::io::{self, BufWriter, Write};

use reference::codes::{rejection_code, NOT_A_TEST, REJECTION_CODES};

/// The greatest number that is listed.
const LAST_NUMBER: u64 = 120;

fn main() -> io::Result<()> {
    let mut output = BufWriter::new(io::stdout().lock());
    for (code, _) in REJECTION_CODES {
        write!(output, "{code}")?;
        for test in (0..=LAST_NUMBER).filter(|&test| rejection_code(test) == Some(code)) {
            write!(output, " {test}")?;
        }
        writeln!(output)?;
    }
    for number in (0..=LAST_NUMBER).filter(|&number| rejection_code(number).is_none()) {
        writeln!(output, "{NOT_A_TEST} {number}")?;
    }
    output.flush()
}
