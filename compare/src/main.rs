//! Holds the proved functions to the reference implementation, on inputs valid and damaged. Stops at the first disagreement.
//!
//! `cargo run --release --offline` compares all; `cargo run --release --offline -- histories` compares lists of bookings alone, and
//! `-- disputes` disputes. With
//! `--record FILE` at the end some of the lists are written to a file, for host/histories.c.

mod conditional;
mod digest;
mod disputes;
mod fields;
mod files;
mod histories;
mod inputs;
mod ledgers;
mod recording;
mod sums;
mod tally;

use compare::proved;
use recording::Recording;

fn bookings(recording: Option<Recording>) -> u64 {
    let bookings = histories::compare(13, proved::book, recording);
    assert!(bookings >= 100_000);
    bookings
}

fn compare_all(recording: Option<Recording>) {
    let fields = fields::compare(0x9e37_79b9_7f4a_7c15);
    assert!(fields >= 200_000);
    let files = files::compare(7);
    assert!(files >= 100_000);
    let ledgers = ledgers::compare(11);
    assert!(ledgers >= 20_000);
    let disputes = disputes::compare(17);
    assert!(disputes >= 100_000);
    let bookings = bookings(recording);
    println!("{fields} fields, {files} files, {ledgers} ledgers, {disputes} disputes and {bookings} bookings, no disagreement");
}

fn main() {
    let arguments: Vec<String> = std::env::args().skip(1).collect();
    let arguments: Vec<&str> = arguments.iter().map(String::as_str).collect();
    let (commands, recording) = match arguments[..] {
        [ref commands @ .., "--record", path] => (commands, Some(Recording::new(path))),
        ref commands => (commands, None),
    };
    match commands {
        [] => compare_all(recording),
        ["disputes"] => println!("{} disputes, no disagreement", disputes::compare(17)),
        ["histories"] => println!("{} bookings, no disagreement", bookings(recording)),
        _ => panic!("usage: compare [disputes | histories] [--record FILE]"),
    }
}
