//! Ledgers with a file to book into them, and unsound ledgers.

use crate::booking::{book, Answer};
use crate::calendar::{date_of, day_of};
use crate::file::RecordType;
use crate::generate::draft::{Draft, DraftRecord};
use crate::generate::random::Random;
use crate::generate::{Generator, Request, MOST_TRIES, RETAILER};
use crate::ledger::{first_broken, kind, state, Entry, Sentence, MOST_ENTRIES};

/// The tests and house numbers of Book that read the ledger.
pub const LEDGER_NUMBERS: [u32; 6] = [8, 39, 40, 102, 101, 105];

/// The sentences of soundness that a ledger can break.
pub const SENTENCES: [Sentence; 17] = [
    Sentence::RunLength,
    Sentence::UsedCount,
    Sentence::SenderDigits,
    Sentence::SiteDigits,
    Sentence::IdDigits,
    Sentence::AmountDigits,
    Sentence::CommodityRange,
    Sentence::KindRange,
    Sentence::StateRange,
    Sentence::DayRange,
    Sentence::StateOfFiles,
    Sentence::StartAfterEnd,
    Sentence::LackedByKind,
    Sentence::CancelledId,
    Sentence::RepeatedPair,
    Sentence::LiveOverlap,
    Sentence::Pairing,
];

/// A ledger and a file to book into it.
#[derive(Clone, Debug)]
pub struct Scenario {
    /// The run.
    pub run: Vec<Entry>,
    /// The used count.
    pub used: usize,
    /// The file.
    pub file: Vec<u8>,
}

impl Generator {
    /// A new sound ledger of a run with this length, from so many bookings of
    /// valid files. Past the used count it holds what no entry may.
    pub fn ledger(&mut self, run_length: usize, bookings: usize) -> (Vec<Entry>, usize) {
        let unused = Entry { kind: 77, charge: i64::MIN, ..Entry::default() };
        let mut run = vec![unused; run_length];
        let mut used = 0;
        self.begin_ledger();
        for _ in 0..bookings {
            let request = self.request();
            let draft = self.valid(&request);
            used += self.book_draft(&draft, &mut run, used);
        }
        (run, used)
    }

    /// Books a draft and takes note if it was accepted; answers how many
    /// entries were added.
    pub fn book_draft(&mut self, draft: &Draft, run: &mut [Entry], used: usize) -> usize {
        let file = self.write(draft);
        match book(RETAILER, &self.distributors(), &file, run, used) {
            Answer::Booked { added, .. } => {
                self.accept(draft);
                added
            }
            Answer::Refused(_) => 0,
        }
    }

    /// A ledger and a file that Book refuses by this number first.
    pub fn refused_booking(&mut self, number: u32) -> Scenario {
        assert!(LEDGER_NUMBERS.contains(&number), "{number} isn't read off the ledger");
        for _ in 0..MOST_TRIES {
            let (mut run, used) = self.ledger(256, 6);
            let file = match number {
                101 | 105 => {
                    let request = self.full_request();
                    let draft = self.valid(&request);
                    match number {
                        101 => run.truncate(used + self.random.place(1 + booked_count(&draft))),
                        _ => run[self.random.place(used.max(1))].sender = 10_000,
                    }
                    let file = self.write(&draft);
                    self.is_refused(number, &file, &run, used).then_some(file)
                }
                _ => self.refused_file(number, &run, used),
            };
            if let Some(file) = file {
                return Scenario { run, used, file };
            }
        }
        panic!("no booking is refused by {number} first");
    }

    /// A file that Book, with this ledger, refuses by 8, 39, 40 or 102 first,
    /// if one is found.
    pub fn refused_file(&mut self, number: u32, run: &[Entry], used: usize) -> Option<Vec<u8>> {
        for _ in 0..50 {
            let request = Request { cancels: 3, ..self.full_request() };
            let file = self.spoiled_once(&request, number, &run[..used]);
            if self.is_refused(number, &file, run, used) {
                return Some(file);
            }
        }
        None
    }

    /// A valid file, spoiled so that with these entries Book refuses it by 8,
    /// 39, 40 or 102. The change may miss.
    pub fn spoiled_once(&mut self, request: &Request, number: u32, stored: &[Entry]) -> Vec<u8> {
        let mut draft = self.valid(request);
        match number {
            8 => take_file_id(&mut self.random, &mut draft, stored),
            39 => break_a_reference(&mut self.random, &mut draft),
            40 => break_a_cancelled_amount(&mut self.random, &mut draft),
            _ => take_stored_id(&mut self.random, &mut draft, stored),
        }
        self.write(&draft)
    }

    fn is_refused(&self, number: u32, file: &[u8], run: &[Entry], used: usize) -> bool {
        let answer = book(RETAILER, &self.distributors(), file, &mut run.to_vec(), used);
        matches!(answer, Answer::Refused(refusal) if refusal.number == number)
    }

    /// A ledger of which this sentence of soundness is the first broken.
    pub fn unsound(&mut self, sentence: Sentence) -> (Vec<Entry>, usize) {
        for _ in 0..MOST_TRIES {
            let (mut run, mut used) = self.ledger(200, 8);
            if used == 0 {
                continue;
            }
            match sentence {
                Sentence::RunLength => run.resize(MOST_ENTRIES + 1, Entry::default()),
                Sentence::UsedCount => used = run.len() + self.random.between(1, 9) as usize,
                _ => break_an_entry(&mut self.random, &mut run[..used], sentence),
            }
            if first_broken(&run, used) == Some(sentence) {
                return (run, used);
            }
        }
        panic!("no ledger breaks {sentence:?} first");
    }
}

/// The number of TH and OC of a draft.
fn booked_count(draft: &Draft) -> usize {
    draft.places(is_booked).len()
}

fn is_booked(record: &DraftRecord) -> bool {
    matches!(record.record_type, RecordType::PeriodHeader | RecordType::OneTimeCharge)
}

/// Gives a record another ID, and its children with it.
fn set_record_id(draft: &mut Draft, place: usize, record_id: u64) {
    let replaced = draft.records[place].field(1).to_owned();
    let same = |text: &str| text.parse::<u64>() == replaced.parse::<u64>();
    for record in &mut draft.records {
        if same(record.field(2)) {
            record.set(2, record_id.to_string());
        }
    }
    draft.records[place].set(1, record_id.to_string());
}

fn take_file_id(random: &mut Random, draft: &mut Draft, stored: &[Entry]) {
    let files: Vec<&Entry> = stored.iter().filter(|entry| entry.kind == kind::FILE).collect();
    if !files.is_empty() {
        set_record_id(draft, 0, files[random.place(files.len())].record_id);
    }
}

fn take_stored_id(random: &mut Random, draft: &mut Draft, stored: &[Entry]) {
    let mut places = draft.places(is_booked);
    places.push(0);
    if !stored.is_empty() {
        let record_id = stored[random.place(stored.len())].record_id;
        set_record_id(draft, places[random.place(places.len())], record_id);
    }
}

/// Lets a cancel name itself, another entry or none, or one that an earlier
/// cancel of the file names, or moves its days.
fn break_a_reference(random: &mut Random, draft: &mut Draft) {
    let cancels = draft.places(|record| is_booked(record) && record.is_cancel());
    if cancels.is_empty() {
        return;
    }
    let place = cancels[random.place(cancels.len())];
    let other = cancels[random.place(cancels.len())];
    let reference_of = |record: &DraftRecord| record.record_type.reference_field().unwrap_or(8);
    let other_reference =
        draft.records[other].field(reference_of(&draft.records[other])).to_owned();
    let record = &mut draft.records[place];
    let number = reference_of(record);
    match random.below(4) {
        0 => record.set(number, record.field(1).to_owned()),
        1 => record.set(number, random.below(5_000).to_string()),
        2 => record.set(number, other_reference),
        _ => lengthen(record),
    }
}

/// Moves the end of a period by a day.
fn lengthen(record: &mut DraftRecord) {
    if record.record_type == RecordType::PeriodHeader {
        let end = day_of(record.field(6).as_bytes());
        if let Some(next) = end.and_then(|end| date_of(end + 1)) {
            record.set(6, next);
        }
    }
}

/// Lets a cancel's charge or usage differ from the opposite.
fn break_a_cancelled_amount(random: &mut Random, draft: &mut Draft) {
    let has_amount = |record: &DraftRecord| {
        let record_type = record.record_type;
        let adds = matches!(
            record_type,
            RecordType::UsageDeterminant | RecordType::TariffCharge | RecordType::OneTimeCharge
        );
        adds && record.is_cancel()
    };
    let places = draft.places(has_amount);
    if !places.is_empty() {
        let units = random.pick(&[1, -1, 250]);
        draft.shift_with_totals(places[random.place(places.len())], units);
    }
}

/// Changes an entry so that a sentence of soundness breaks. The change may
/// miss; the caller checks.
fn break_an_entry(random: &mut Random, entries: &mut [Entry], sentence: Sentence) {
    let place = random.place(entries.len());
    let other = entries[random.place(entries.len())];
    let amount = random.pick(&[1_000_000_000_000_000, -1_000_000_000_000_000, i64::MIN, i64::MAX]);
    let coin = random.percent(50);
    let entry = &mut entries[place];
    match sentence {
        Sentence::SenderDigits => entry.sender = random.pick(&[10_000, u64::MAX]),
        Sentence::SiteDigits => entry.site = random.pick(&[10_000_000_000_000, u64::MAX]),
        Sentence::IdDigits if coin => entry.record_id = 1_000_000_000_000_000,
        Sentence::IdDigits => entry.cancelled_id = u64::MAX,
        Sentence::AmountDigits if coin => entry.charge = amount,
        Sentence::AmountDigits => entry.usage = amount,
        Sentence::CommodityRange => entry.commodity = random.pick(&[0, 3, u64::MAX]),
        Sentence::KindRange => entry.kind = random.pick(&[0, 4, u64::MAX]),
        Sentence::StateRange => entry.state = random.pick(&[5, u64::MAX]),
        Sentence::DayRange if coin => entry.start = 36_525,
        Sentence::DayRange => entry.end = random.pick(&[36_525, u64::MAX]),
        Sentence::StateOfFiles => entry.state = random.below(5),
        Sentence::StartAfterEnd => entry.start = entry.end + 1,
        Sentence::LackedByKind if coin => entry.end += 1,
        Sentence::LackedByKind => entry.usage = 1,
        Sentence::CancelledId => entry.cancelled_id = random.pick(&[1, other.record_id]),
        Sentence::RepeatedPair => {
            (entry.sender, entry.record_id) = (other.sender, other.record_id);
        }
        Sentence::LiveOverlap => entry.state = state::LIVE,
        Sentence::Pairing => break_a_pair(random, entries, place),
        Sentence::RunLength | Sentence::UsedCount => {}
    }
}

/// Changes what tests 39 and 40 compare, or the order of two entries.
fn break_a_pair(random: &mut Random, entries: &mut [Entry], place: usize) {
    let other = random.place(entries.len());
    let entry = &mut entries[place];
    match random.below(8) {
        0 => entry.charge += 1,
        1 => entry.usage += 1,
        2 => entry.state = random.between(1, 4),
        3 => entry.cancelled_id += 1,
        4 => entry.commodity = 3 - entry.commodity,
        5 => entry.site += 1,
        6 => entry.end = (entry.end + 1).min(36_524),
        _ => entries.swap(place, other),
    }
}
