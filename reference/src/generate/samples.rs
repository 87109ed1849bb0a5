//! Sample files for readers and for the desk's program.

use crate::bill::Commodity;
use crate::generate::damage::CHECK_TESTS;
use crate::generate::{Generator, Request, Style};
use crate::ledger::Entry;

/// The tests of Table 5-1 that read the ledger. Their samples are to be booked
/// after `valid-electricity.csv`.
pub const LEDGER_TESTS: [u32; 3] = [8, 39, 40];

/// The sample of valid electricity.
pub const VALID_ELECTRICITY: &str = "valid-electricity.csv";

/// The sample of valid gas.
pub const VALID_GAS: &str = "valid-gas.csv";

/// The sample that cancels and rebills, to be booked after the valid
/// electricity.
pub const CANCEL_AND_REBILL: &str = "cancel-and-rebill.csv";

/// The same of gas, to be booked after the valid gas.
pub const CANCEL_AND_REBILL_GAS: &str = "cancel-and-rebill-gas.csv";

/// The name of the sample that a test refuses.
pub fn sample_name(test: u32) -> String {
    format!("test-{test:02}.csv")
}

/// The sample files with their names: one of valid electricity, one of valid
/// gas, one with cancels and rebills of that electricity, and for each test
/// one that it is the first to refuse.
pub fn sample_files(seed: u64) -> Vec<(String, Vec<u8>)> {
    let mut generator = Generator::new(seed, Style::Sample);
    let request = Request {
        sender: 0,
        commodity: Commodity::Electricity,
        sites: 3,
        periods: 2,
        one_time_sites: 1,
        cancels: 0,
    };
    let electricity = generator.valid(&request);
    let gas = generator.valid(&Request { commodity: Commodity::NaturalGas, ..request });
    let mut run = vec![Entry::default(); 64];
    let used = generator.book_draft(&electricity, &mut run, 0);
    let rebill = generator.valid(&Request { sites: 1, periods: 1, cancels: 2, ..request });
    let mut files = vec![
        (VALID_ELECTRICITY.to_owned(), electricity.plain_bytes()),
        (VALID_GAS.to_owned(), gas.plain_bytes()),
        (CANCEL_AND_REBILL.to_owned(), rebill.plain_bytes()),
    ];
    for test in LEDGER_TESTS {
        let file = generator.refused_file(test, &run, used);
        files.extend(file.map(|file| (sample_name(test), file)));
    }
    generator.begin_ledger();
    generator.accept(&gas);
    let gas_rebill =
        Request { commodity: Commodity::NaturalGas, sites: 1, periods: 1, cancels: 2, ..request };
    let draft = generator.valid(&gas_rebill);
    files.push((CANCEL_AND_REBILL_GAS.to_owned(), draft.plain_bytes()));
    generator.begin_ledger();
    // That of 6, a later request, comes last, so that the others stay as they were.
    let (of_6, others): (Vec<u32>, Vec<u32>) = CHECK_TESTS.iter().partition(|&&test| test == 6);
    let tests = others.into_iter().chain(of_6);
    files.extend(tests.map(|test| (sample_name(test), generator.damaged(test))));
    files
}
