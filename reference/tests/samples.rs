//! The sample files are what their names say, and stand up to more tests of
//! Table 5-1 than those of document 01.

use std::collections::BTreeMap;

use reference::booking::{book, Answer};
use reference::check::check;
use reference::desk::answer_line;
use reference::generate::damage::CHECK_TESTS;
use reference::generate::samples::*;
use reference::generate::{Generator, Style};
use reference::ledger::{state, Entry};

const RETAILER: u64 = 999_999_999;
const DISTRIBUTORS: &[u8] = b"0040";

fn samples() -> BTreeMap<String, Vec<u8>> {
    sample_files(4).into_iter().collect()
}

#[test]
fn every_test_has_its_sample() {
    let samples = samples();
    let valid = [VALID_ELECTRICITY, VALID_GAS, CANCEL_AND_REBILL, CANCEL_AND_REBILL_GAS];
    assert_eq!(samples.len(), valid.len() + CHECK_TESTS.len() + LEDGER_TESTS.len());
    assert_eq!(check(RETAILER, DISTRIBUTORS, &samples[CANCEL_AND_REBILL_GAS]), (0, 0));
    for test in CHECK_TESTS {
        let file = &samples[&sample_name(test)];
        assert_eq!(check(RETAILER, DISTRIBUTORS, file).0, test);
        assert!(answer_line(file).starts_with(&format!("rejected {test} ")));
    }
}

#[test]
fn valid_samples_are_accepted() {
    let samples = samples();
    for name in [VALID_ELECTRICITY, VALID_GAS] {
        assert_eq!(check(RETAILER, DISTRIBUTORS, &samples[name]), (0, 0));
        assert!(answer_line(&samples[name]).starts_with("accepted "));
    }
}

#[test]
fn samples_after_valid_electricity() {
    let samples = samples();
    let mut run = vec![Entry::default(); 64];
    let Answer::Booked { added: used, held: 0 } =
        book(RETAILER, DISTRIBUTORS, &samples[VALID_ELECTRICITY], &mut run, 0)
    else {
        panic!("the valid electricity is accepted");
    };
    for test in LEDGER_TESTS {
        let answer = book(RETAILER, DISTRIBUTORS, &samples[&sample_name(test)], &mut run, used);
        assert!(matches!(answer, Answer::Refused(refusal) if refusal.number == test));
    }
    let answer = book(RETAILER, DISTRIBUTORS, &samples[CANCEL_AND_REBILL], &mut run, used);
    assert!(matches!(answer, Answer::Booked { held: 0, .. }), "{answer:?}");
    assert!(run.iter().any(|entry| entry.state == state::CANCELLED));
}

/// The fields of a file's lines.
fn records(file: &[u8]) -> Vec<Vec<String>> {
    let text = String::from_utf8(file.to_vec()).unwrap();
    text.lines().map(|line| line.split(',').map(str::to_owned).collect()).collect()
}

/// Conditional fields are filled where their condition holds, and FH field 9
/// is empty.
#[test]
fn conditional_fields_are_filled() {
    for seed in 0..40 {
        for file in accepted_files(seed) {
            let mut site_status = String::new();
            let mut meter_type = String::new();
            for fields in records(&file) {
                let filled = |number: usize| !fields[number - 1].is_empty();
                match fields[2].as_str() {
                    "FH" => assert!(!filled(9)),
                    "TH" => {
                        site_status = fields[10].clone();
                        assert!((filled(8), filled(9)) == (fields[6] == "Y", fields[6] == "Y"));
                    }
                    "DU" => {
                        meter_type = fields[7].clone();
                        let is_read = meter_type == "C" && site_status == "E";
                        assert!(meter_type != "C" || filled(9));
                        assert!(!is_read || (10..=15).all(filled));
                    }
                    "DD" => {
                        let code = fields[7].as_str();
                        let is_ratchet = ["4100", "4110", "4120", "4200"].contains(&code);
                        let is_contract = ["4040", "4050", "4060", "4190"].contains(&code);
                        assert_eq!(filled(11), meter_type == "C" && code == "4080");
                        assert_eq!((filled(12), filled(13)), (is_ratchet, is_ratchet));
                        assert_eq!(filled(15), is_contract);
                    }
                    "OC" => {
                        assert!((filled(7), filled(8)) == (fields[5] == "Y", fields[5] == "Y"));
                    }
                    _ => {}
                }
            }
        }
    }
}

/// The usage and charge records of each period cover its days just once.
#[test]
fn usage_covers_every_day() {
    for seed in 0..40 {
        for file in accepted_files(seed) {
            let records = records(&file);
            for (place, header) in
                records.iter().enumerate().filter(|(_, fields)| fields[2] == "TH")
            {
                let usages: Vec<&Vec<String>> =
                    records[place + 1..].iter().take_while(|fields| fields[2] == "DU").collect();
                let day = |date: &str| reference::calendar::day_of(date.as_bytes()).unwrap();
                let mut next = day(&header[4]);
                for usage in usages {
                    assert_eq!(day(&usage[4]), next);
                    next = day(&usage[5]) + 1;
                }
                assert_eq!(next, day(&header[5]) + 1);
                let charges = records[place + 1..]
                    .iter()
                    .take_while(|fields| ["DU", "DD", "DM", "CH"].contains(&fields[2].as_str()))
                    .filter(|fields| fields[2] == "CH");
                for charge in charges {
                    assert_eq!((&charge[4], &charge[5]), (&header[4], &header[5]));
                }
            }
        }
    }
}

/// Files of the sample style, each accepted before the next is drawn.
fn accepted_files(seed: u64) -> Vec<Vec<u8>> {
    let mut generator = Generator::new(seed, Style::Sample);
    (0..6)
        .map(|_| {
            let request = generator.request();
            let draft = generator.valid(&request);
            generator.accept(&draft);
            draft.plain_bytes()
        })
        .collect()
}
