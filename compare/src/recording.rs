//! Writes bookings down for host/histories.c to replay, each with what the reference implementation answers.
//!
//! Every booking is what is called and then what is answered; numbers are words of the machine.
//!
//! - Called: the places of the run, the used count, whether the run is lent anew (1 or 0), the retailer, the length of the distributor
//!   IDs and that of the file; the entries of a run that is lent anew; the distributor IDs; the file.
//! - Answered: number, line, added and held of Book; the checksum of the run's bytes after it; number and six sums of Totals; and for
//!   each Find the site, the day, and the number, whether one is found and its place.

use crate::digest::Digest;
use compare::proved::bytes_of;
use reference::booking::Answer;
use reference::generate::history::Call;
use reference::ledger::{Entry, Totals};
use std::fs::File;
use std::io::{BufWriter, Write};

/// So many Finds follow each booking, as host/histories.c has it.
pub const FINDS: usize = 2;

/// A Find and its answer.
pub struct Find {
    pub site: u64,
    pub day: u64,
    pub answer: Result<Option<usize>, u32>,
}

/// What the reference implementation answers and leaves.
pub struct Answers<'a> {
    pub booking: Answer,
    pub run: &'a [Entry],
    pub totals: Result<Totals, u32>,
    pub finds: [Find; FINDS],
}

pub struct Recording {
    to: BufWriter<File>,
}

impl Recording {
    pub fn new(path: &str) -> Recording {
        let file = File::create(path).unwrap_or_else(|error| panic!("{path}: {error}"));
        Recording { to: BufWriter::new(file) }
    }

    pub fn call(&mut self, run: &[Entry], used: usize, is_lent_anew: bool, call: &Call) {
        let Call { retailer, distributors, file } = call;
        self.words(&[run.len() as u64, used as u64, u64::from(is_lent_anew), *retailer, distributors.len() as u64, file.len() as u64]);
        if is_lent_anew {
            self.bytes(bytes_of(run));
        }
        self.bytes(distributors);
        self.bytes(file);
    }

    pub fn answers(&mut self, answers: &Answers) {
        self.words(&words_of_booking(answers.booking));
        self.words(&[checksum(bytes_of(answers.run))]);
        self.words(&words_of_totals(answers.totals));
        for Find { site, day, answer } in &answers.finds {
            self.words(&[*site, *day]);
            self.words(&words_of_find(*answer));
        }
    }

    pub fn finish(mut self) {
        self.to.flush().expect("the histories can be written");
    }

    fn words(&mut self, words: &[u64]) {
        words.iter().for_each(|word| self.bytes(&word.to_ne_bytes()));
    }

    fn bytes(&mut self, bytes: &[u8]) {
        self.to.write_all(bytes).expect("the histories can be written");
    }
}

pub fn words_of_booking(answer: Answer) -> [u64; 4] {
    match answer {
        Answer::Booked { added, held } => [0, 0, added as u64, held as u64],
        Answer::Refused(refusal) => [refusal.number.into(), refusal.line.into(), 0, 0],
    }
}

pub fn words_of_totals(answer: Result<Totals, u32>) -> [u64; 7] {
    let number = answer.err().unwrap_or(0);
    let Totals { live, held } = answer.unwrap_or_default();
    let sums = [live.charge, live.usage_kwh, live.usage_gj, held.charge, held.usage_kwh, held.usage_gj].map(|sum| sum as u64);
    [number.into(), sums[0], sums[1], sums[2], sums[3], sums[4], sums[5]]
}

pub fn words_of_find(answer: Result<Option<usize>, u32>) -> [u64; 3] {
    match answer {
        Ok(Some(place)) => [0, 1, place as u64],
        Ok(None) => [0, 0, 0],
        Err(number) => [number.into(), 0, 0],
    }
}

fn checksum(bytes: &[u8]) -> u64 {
    let mut digest = Digest::new();
    digest.fold_bytes(bytes);
    digest.value()
}
