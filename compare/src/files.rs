//! Files: valid ones, ones damaged so that a given test is the first to fail, edited ones, noise, files at both limits, files with an
//! amount or a conditional field left out, and files whose sums are as large as they may be.

use crate::conditional;
use crate::digest::Digest;
use crate::sums;
use crate::tally::Tally;
use compare::proved;
use reference::check::check;
use reference::conditions::condition_of;
use reference::file::{RecordType, RECORD_TYPES};
use reference::generate::damage::CHECK_TESTS;
use reference::generate::draft::Draft;
use reference::generate::{Generator, Style, DISTRIBUTOR, RETAILER};
use std::collections::BTreeMap;

/// So many files are damaged for each test, beside those that other damage brings to it.
const DAMAGED_FOR_EACH: usize = 600;

const VALID: usize = 24_000;

/// So many files have each amount field and each conditional field left out, in each way that is told apart.
pub const LEFT_OUT_FOR_EACH: usize = 100;

pub struct Comparison {
    tally: Tally,
    digest: Digest,
    /// How often each number was the answer.
    answers: BTreeMap<u32, u64>,
}

impl Comparison {
    /// Holds a file, and answers what the proved Check does.
    pub fn hold(&mut self, retailer: u64, distributors: &[u8], file: &[u8]) -> (u32, u32) {
        let expected = check(retailer, distributors, file);
        let proved = proved::check(retailer, distributors, file);
        let shown = String::from_utf8_lossy(&file[..file.len().min(2_000)]).into_owned();
        self.tally.hold("check", &shown, proved, expected, expected == (0, 0));
        self.digest.fold(&[proved.0.into(), proved.1.into()]);
        *self.answers.entry(expected.0).or_insert(0) += 1;
        proved
    }
}

fn hold_settings(comparison: &mut Comparison, file: &[u8]) {
    let long = b"0040".repeat(32);
    let too_long = b"0040".repeat(33);
    let lists: [&[u8]; 12] = [b"", b"0", b"004", b"0040", b"00400", b"0041", b"00410040", b"00400041", b"004x", b"0040 040", &long, &too_long];
    for distributors in lists {
        for retailer in [0, 1, RETAILER - 1, RETAILER, RETAILER + 1, u64::MAX] {
            comparison.hold(retailer, distributors, file);
        }
    }
}

fn hold_generated(comparison: &mut Comparison, seed: u64, style: Style) {
    let mut generator = Generator::with_senders(seed, style, &[DISTRIBUTOR, 41]);
    let distributors = generator.distributors();
    for count in 0..VALID / 2 {
        let request = generator.request();
        let draft = generator.valid(&request);
        let file = generator.write(&draft);
        if count == 0 {
            hold_settings(comparison, &file);
        }
        comparison.hold(RETAILER, &distributors, &file);
        for _ in 0..3 {
            let edited = generator.edited(&file);
            comparison.hold(RETAILER, &distributors, &edited);
        }
        if count % 4 == 0 {
            generator.accept(&draft);
        }
        if count % 200 == 0 {
            generator.begin_ledger();
        }
    }
    for test in CHECK_TESTS {
        for _ in 0..DAMAGED_FOR_EACH / 2 {
            let file = generator.damaged(test);
            comparison.hold(RETAILER, &distributors, &file);
        }
    }
    for (_, file) in generator.limits() {
        comparison.hold(RETAILER, &distributors, &file);
    }
    for length in 0..2_000 {
        let file = generator.noise(length % 400);
        comparison.hold(RETAILER, &distributors, &file);
    }
}

/// A valid file, which may have cancels, and the place of one of its records of a type that are fit.
pub fn draft_with(generator: &mut Generator, record_type: RecordType, is_fit: impl Fn(&Draft, usize) -> bool) -> (Draft, usize) {
    loop {
        let request = generator.full_request();
        let draft = generator.valid(&request);
        generator.begin_ledger();
        generator.accept(&draft);
        let mut places = draft.places(|record| record.record_type == record_type);
        places.retain(|&place| is_fit(&draft, place));
        if !places.is_empty() {
            return (draft, generator.random.pick(&places));
        }
    }
}

/// Holds a valid file with one amount field left out, and answers the number: 5 refuses it where the field is mandatory, 6 where a condition
/// asks for it, and otherwise it passes. With 0 in a field that isn't mandatory it passes. Spaces are no amount.
fn hold_left_out(comparison: &mut Comparison, draft: &Draft, place: usize, number: usize) -> u32 {
    let (record_type, line) = (draft.records[place].record_type, place as u32 + 1);
    let mut answer_with = |text: &str| {
        let mut draft = draft.clone();
        draft.records[place].set(number, text);
        comparison.hold(RETAILER, b"0040", &draft.plain_bytes())
    };
    let is_optional = record_type.optional_amount_fields().any(|optional| optional == number);
    let expected = match (is_optional, draft.asks_for(place, number)) {
        (false, _) => (5, line),
        (true, true) => (6, line),
        (true, false) => (0, 0),
    };
    assert_eq!(answer_with(""), expected, "field {number} of {record_type:?} is left out");
    if is_optional {
        assert_eq!(answer_with("0"), (0, 0), "field {number} of {record_type:?} is 0");
    }
    for spaces in [" ", "  ", "   "] {
        assert_eq!(answer_with(spaces), (3, line), "field {number} of {record_type:?} is {spaces:?}");
    }
    expected.0
}

/// Holds each amount field left out where no condition asks for it, and also where one does if test 6 can ask for it.
fn hold_amount_fields(comparison: &mut Comparison, seed: u64) {
    let mut generator = Generator::new(seed, Style::Varied);
    let mut counts: BTreeMap<(u32, &str, usize), usize> = BTreeMap::new();
    for record_type in RECORD_TYPES {
        for number in record_type.amount_fields() {
            let can_be_asked_for = condition_of(record_type, number).is_some();
            let cases: &[bool] = if can_be_asked_for { &[false, true] } else { &[false] };
            for &is_asked_for in cases {
                for _ in 0..LEFT_OUT_FOR_EACH {
                    let is_fit = |draft: &Draft, place: usize| draft.asks_for(place, number) == is_asked_for;
                    let (draft, place) = draft_with(&mut generator, record_type, is_fit);
                    let answer = hold_left_out(comparison, &draft, place, number);
                    *counts.entry((answer, record_type.code(), number)).or_insert(0) += 1;
                }
            }
        }
    }
    assert!(counts.values().all(|count| *count >= LEFT_OUT_FOR_EACH), "{counts:?}");
    for (answer, fields) in [(0, 8), (5, 18), (6, 7)] {
        let answered = counts.keys().filter(|key| key.0 == answer);
        let met: Vec<String> = answered.map(|(_, record_type, number)| format!("{record_type} {number}")).collect();
        assert_eq!(met.len(), fields, "fields left out that {answer} answers");
        println!("amount fields left out, answered {answer} in {LEFT_OUT_FOR_EACH} files each: {}", met.join(", "));
    }
}

/// Compares Check, and answers how many files there were.
pub fn compare(seed: u64) -> u64 {
    let mut comparison = Comparison { tally: Tally::new(), digest: Digest::new(), answers: BTreeMap::new() };
    hold_generated(&mut comparison, seed, Style::Sample);
    hold_generated(&mut comparison, seed + 1, Style::Varied);
    hold_amount_fields(&mut comparison, seed + 2);
    conditional::hold(&mut comparison, seed + 3);
    sums::hold(&mut comparison, seed + 4);
    comparison.hold(RETAILER, b"0040", b"");
    for test in CHECK_TESTS {
        let met = comparison.answers.get(&test).copied().unwrap_or(0);
        assert!(met >= 500, "test {test} was met only {met} times");
    }
    let answers: Vec<String> = comparison.answers.iter().map(|(number, count)| format!("{number}: {count}")).collect();
    println!("answers {}", answers.join(", "));
    comparison.tally.report_with("files", &comparison.digest)
}
