//! The bookings that Book is timed on: a ledger, mostly with room for as many entries as it may have, and a file to book into it.

use crate::files::{Files, Ids};
use crate::ledgers::{Ledgers, SENDERS};
use compare::proved;
use reference::booking::{book, Answer};
use reference::check::Settings;
use reference::file::{RecordType, MOST_LINES};
use reference::generate::content::date;
use reference::generate::draft::{Draft, DraftRecord};
use reference::generate::{Request, RETAILER};
use reference::ledger::{Entry, MOST_ENTRIES};
use std::cell::RefCell;

/// How many periods a file has between its header, its one site header and its trailer.
const PERIODS_OF_ONE_SITE: usize = MOST_LINES - 3;

/// A ledger and a file. Both sides are lent the same run.
pub struct Booking {
    distributors: Vec<u8>,
    file: Vec<u8>,
    used: usize,
    run: RefCell<Vec<Entry>>,
    /// The places that a call changes, and the entries that they have before it.
    changed: Vec<(usize, Entry)>,
}

impl Booking {
    /// The booking of a file into the entries of a ledger, which stand in a run of so many places.
    fn new(stored: &[Entry], places: usize, draft: &Draft) -> Booking {
        let mut run = stored.to_vec();
        run.resize(places, Entry::default());
        let distributors = SENDERS.map(|sender| format!("{sender:04}")).concat().into_bytes();
        let file = draft.plain_bytes();
        let mut booking = Booking { distributors, file, used: stored.len(), run: RefCell::new(run.clone()), changed: Vec::new() };
        booking.by_reference();
        booking.changed = run.into_iter().enumerate().filter(|(place, before)| booking.run.borrow()[*place] != *before).collect();
        booking.restore();
        booking
    }

    /// The number of the proved function's answer, 0 where the file is accepted.
    pub fn by_proved(&self) -> u32 {
        let mut run = self.run.borrow_mut();
        let places = run.len();
        let settings = Settings { retailer: RETAILER, distributors: &self.distributors };
        number_of(proved::book(&mut run, places, self.used, settings, &self.file))
    }

    /// The same of the reference implementation.
    pub fn by_reference(&self) -> u32 {
        number_of(book(RETAILER, &self.distributors, &self.file, &mut self.run.borrow_mut(), self.used))
    }

    /// Makes the ledger as it was before a call.
    pub fn restore(&self) {
        let mut run = self.run.borrow_mut();
        self.changed.iter().for_each(|(place, entry)| run[*place] = *entry);
    }
}

fn number_of(answer: Answer) -> u32 {
    match answer {
        Answer::Booked { .. } => 0,
        Answer::Refused(refusal) => refusal.number,
    }
}

/// Draws bookings, each another one.
pub struct Bookings {
    ledgers: Ledgers,
    files: Files,
}

impl Bookings {
    pub fn new() -> Bookings {
        Bookings { ledgers: Ledgers::new(), files: Files::new() }
    }

    /// A file of so many periods into a ledger of so many entries in a run of so many places. It bills some of the ledger's sites again.
    pub fn periods(&mut self, periods: usize, entries: usize, places: usize) -> Booking {
        let stored = self.ledgers.full(entries);
        let draft = self.ledgers.generator.valid_of_periods(&Request::ONE_PERIOD, periods);
        Booking::new(&stored, places, &draft)
    }

    /// A file of as many lines as a file may have into an empty ledger.
    pub fn most_lines(&mut self) -> Booking {
        Booking::new(&[], MOST_ENTRIES, &self.files.many_sites_draft(MOST_LINES, Ids::Rising))
    }

    /// A file of so many cancels of periods into a ledger that has them, and so many other entries before them.
    pub fn cancels(&mut self, cancels: usize, others: usize) -> Booking {
        let (stored, draft) = self.cancels_draft(cancels, others);
        Booking::new(&stored, MOST_ENTRIES, &draft)
    }

    /// The same, but the last cancel names itself, which is no entry.
    pub fn cancels_without_the_last(&mut self, cancels: usize, others: usize) -> Booking {
        let (stored, mut draft) = self.cancels_draft(cancels, others);
        let place = *draft.places(|record| record.record_type == RecordType::PeriodHeader).last().expect("the file has cancels");
        let record_id = draft.records[place].field(1).to_owned();
        draft.records[place].set(8, record_id);
        Booking::new(&stored, MOST_ENTRIES, &draft)
    }

    fn cancels_draft(&mut self, cancels: usize, others: usize) -> (Vec<Entry>, Draft) {
        let mut run = self.ledgers.full(others);
        run.resize(others + 1 + cancels, Entry::default());
        let generator = &mut self.ledgers.generator;
        generator.begin_ledger();
        let originals = generator.valid_of_periods(&Request::ONE_PERIOD, cancels);
        assert_eq!(generator.book_draft(&originals, &mut run, others), 1 + cancels);
        (run, generator.valid_of_cancels(&Request::ONE_PERIOD))
    }

    /// As many periods as a file can have, of one day each and all of the one site of a ledger that has as many, and all live.
    pub fn one_site(&mut self) -> Booking {
        let mut run = vec![Entry::default(); 1 + PERIODS_OF_ONE_SITE];
        let (earlier, later) = (self.one_site_draft(0), self.one_site_draft(1));
        assert_eq!(self.ledgers.generator.book_draft(&earlier, &mut run, 0), run.len());
        Booking::new(&run, MOST_ENTRIES, &later)
    }

    /// A file of periods of one site: of every other day, from one on.
    fn one_site_draft(&mut self, first_day: u32) -> Draft {
        let mut draft = self.files.one_site_draft(16, 1);
        let trailer = draft.records.pop().expect("the file has a trailer");
        draft.records.truncate(3);
        for record in &mut draft.records[1..] {
            record.set(4, format!("{:013}", 1));
            record.set(12, "0");
            record.set(14, "0");
        }
        [5, 6].into_iter().for_each(|day| draft.records[1].set(day, ""));
        let template = draft.records.pop().expect("the file has a period");
        let file_id = self.ledgers.generator.random.below(1_000_000) * 1_000_000;
        let days = (0..PERIODS_OF_ONE_SITE).map(|place| date(first_day + 2 * place as u32));
        draft.records.extend(days.map(|day| period_of_a_day(&template, &day)));
        draft.records.push(trailer);
        number_records(&mut draft, file_id);
        draft
    }
}

fn period_of_a_day(template: &DraftRecord, day: &str) -> DraftRecord {
    let mut period = template.clone();
    period.set(5, day);
    period.set(6, day);
    period
}

/// Gives the records of a file with one site header their Record IDs, from one on, and the trailer its count and total.
fn number_records(draft: &mut Draft, file_id: u64) {
    let count = draft.records.len();
    for (place, record) in draft.records.iter_mut().enumerate() {
        record.set(1, (file_id + place as u64).to_string());
        match record.record_type {
            RecordType::FileHeader => {}
            RecordType::PeriodHeader => record.set(2, (file_id + 1).to_string()),
            _ => record.set(2, file_id.to_string()),
        }
    }
    draft.records[count - 1].set(4, count.to_string());
    draft.records[count - 1].set(5, "0");
}
