//! Book: the tests that read the ledger, and the entries that an accepted file
//! appends.

use std::collections::BTreeMap;

use crate::bill::{Bill, Row};
use crate::check::{validated_bill, Refusal, Settings};
use crate::file::RecordType;
use crate::hashing::id_set;
use crate::ledger::{kind, state, Entry, Ledger, LivePeriods, Places};
use crate::periods::{shares_day, Period};

/// "Returns number and line, ledger unchanged; or how many entries were added
/// and how many held."
#[derive(Clone, Copy, Debug, PartialEq, Eq)]
pub enum Answer {
    /// The file is accepted; the used count grows by `added`.
    Booked {
        /// The number of entries added.
        added: usize,
        /// The number of them that are held.
        held: usize,
    },
    /// The file is refused and the ledger unchanged.
    Refused(Refusal),
}

/// Book: "104, 105 (ledger not sound), 103, 2 to 38, 8, 39, 40, 102, 101."
pub fn book(
    retailer: u64,
    distributors: &[u8],
    file: &[u8],
    run: &mut [Entry],
    used: usize,
) -> Answer {
    match try_book(&Settings { retailer, distributors }, file, run, used) {
        Ok((added, held)) => Answer::Booked { added, held },
        Err(refusal) => Answer::Refused(refusal),
    }
}

/// Books a file; answers how many entries were added and how many held.
fn try_book(
    settings: &Settings,
    file: &[u8],
    run: &mut [Entry],
    used: usize,
) -> Result<(usize, usize), Refusal> {
    settings.validate()?;
    let ledger = Ledger::of(run, used).ok_or(Refusal::house(105))?;
    let bill = validated_bill(settings, file)?;
    let booking = Booking::of(&bill);
    booking.file_is_new(run, &ledger.places)?;
    let named = booking.cancels_name_entries(run, &ledger.places)?;
    booking.cancels_are_opposites(run, &named)?;
    booking.ids_are_new(&ledger.places)?;
    booking.fits_into(run.len() - used)?;
    Ok(booking.append_to(run, used, &named, ledger.live_periods))
}

/// A record to book: the place of its line, from 0, and its entry, whose state
/// is still open if it is an original.
struct BookedRecord {
    place: usize,
    entry: Entry,
    has_reference: bool,
}

/// What an accepted file appends: "its file entry, then its cancels (Indicator
/// Y) in file order, then its originals (N) in file order, TH and OC alike."
struct Booking {
    file_entry: Entry,
    cancels: Vec<BookedRecord>,
    originals: Vec<BookedRecord>,
}

impl Booking {
    fn of(bill: &Bill) -> Self {
        let sender = bill.sender_id();
        let commodity = bill.commodity as u64;
        let record = |(place, row): (usize, &Row)| BookedRecord {
            place,
            entry: Entry { sender, commodity, ..entry_of(row) },
            has_reference: row.reference.is_some(),
        };
        let records = bill.rows.iter().enumerate().filter(|(_, row)| row.is_booked());
        let (cancels, originals) =
            records.map(record).partition(|record| record.entry.state == state::CANCEL);
        Booking { file_entry: file_entry_of(bill), cancels, originals }
    }

    /// Test 8: "no file entry of this sender has FH's Record ID."
    fn file_is_new(&self, run: &[Entry], places: &Places) -> Result<(), Refusal> {
        let file = &self.file_entry;
        match places.get(file.sender, file.record_id) {
            Some(place) if run[place].kind == kind::FILE => Err(Refusal::at_place(8, 0)),
            _ => Ok(()),
        }
    }

    /// Test 39: "a Y record's Reference ID (an empty one names none) names an
    /// entry of the same sender, commodity, kind, site and (for a period)
    /// days, live or held before this file, that no earlier Y record of the
    /// file names." Answers the places named, one for each cancel.
    fn cancels_name_entries(&self, run: &[Entry], places: &Places) -> Result<Vec<usize>, Refusal> {
        let mut taken = id_set(self.cancels.len());
        let mut named_place = |cancel: &BookedRecord| {
            let entry = &cancel.entry;
            places
                .get(entry.sender, entry.cancelled_id)
                .filter(|_| cancel.has_reference)
                .filter(|&place| run[place].is_named_by(entry) && run[place].is_live_or_held())
                .filter(|&place| taken.insert(place as u64))
        };
        self.cancels
            .iter()
            .map(|cancel| named_place(cancel).ok_or(Refusal::at_place(39, cancel.place)))
            .collect()
    }

    /// Test 40: "its charge and usage totals (for an OC, its Charge Amount)
    /// are the opposites of that entry's."
    fn cancels_are_opposites(&self, run: &[Entry], named: &[usize]) -> Result<(), Refusal> {
        let mut pairs = self.cancels.iter().zip(named);
        match pairs.find(|(cancel, &place)| !run[place].is_opposite_of(&cancel.entry)) {
            Some((cancel, _)) => Err(Refusal::at_place(40, cancel.place)),
            None => Ok(()),
        }
    }

    /// "102: no FH, TH or OC Record ID is stored under this sender."
    fn ids_are_new(&self, places: &Places) -> Result<(), Refusal> {
        let is_stored = |entry: &Entry| places.get(entry.sender, entry.record_id).is_some();
        if is_stored(&self.file_entry) || self.records().any(|record| is_stored(&record.entry)) {
            return Err(Refusal::house(102));
        }
        Ok(())
    }

    /// "101, line 0: the used count plus 1 plus the number of TH and OC
    /// exceeds the run's length."
    fn fits_into(&self, entries_left: usize) -> Result<(), Refusal> {
        if 1 + self.records().count() > entries_left {
            return Err(Refusal::house(101));
        }
        Ok(())
    }

    /// The cancels and then the originals.
    fn records(&self) -> impl Iterator<Item = &BookedRecord> {
        self.cancels.iter().chain(&self.originals)
    }

    /// Appends the entries; answers how many were added and how many held.
    fn append_to(
        &self,
        run: &mut [Entry],
        used: usize,
        named: &[usize],
        mut live_periods: LivePeriods,
    ) -> (usize, usize) {
        for &place in named {
            run[place] = run[place].cancelled();
        }
        if !named.is_empty() {
            live_periods.drop_cancelled(run);
        }
        let mut live = LiveAtTurn { stored: live_periods, added: BTreeMap::new() };
        let file_entry = std::iter::once(self.file_entry);
        let cancels = self.cancels.iter().map(|record| record.entry);
        let originals = self.originals.iter().map(|record| live.take_original(record.entry));
        let mut added = 0;
        let mut held = 0;
        for (entry, free_place) in file_entry.chain(cancels).chain(originals).zip(&mut run[used..])
        {
            *free_place = entry;
            added += 1;
            held += usize::from(entry.state == state::HELD);
        }
        (added, held)
    }
}

/// The live periods at an original's turn.
struct LiveAtTurn {
    /// Those of the ledger that no cancel of this file names.
    stored: LivePeriods,
    /// The end days of the periods that this file has made live, by site and
    /// start day.
    added: BTreeMap<(u64, u64), u64>,
}

impl LiveAtTurn {
    /// "An original period is held if it shares a day with a live period of
    /// its site at that moment, whoever sent either; otherwise live. Original
    /// one-time charges are live."
    fn take_original(&mut self, original: Entry) -> Entry {
        let is_period = original.kind == kind::PERIOD;
        if is_period && self.holds(original.site, original.period()) {
            return original.in_state(state::HELD);
        }
        if is_period {
            self.added.insert((original.site, original.start), original.end);
        }
        original.in_state(state::LIVE)
    }

    fn holds(&self, site: u64, period: Period) -> bool {
        let nearest_added = self.added.range((site, 0)..=(site, period.1)).next_back();
        nearest_added.is_some_and(|(&(_, start), &end)| shares_day((start, end), period))
            || self.stored.share_a_day(site, period)
    }
}

/// "a file entry has its trailer charge total, state 0".
fn file_entry_of(bill: &Bill) -> Entry {
    Entry {
        sender: bill.sender_id(),
        commodity: bill.commodity as u64,
        kind: kind::FILE,
        record_id: bill.file_id(),
        charge: bill.rows.last().map_or(0, |trailer| trailer.charge),
        state: state::FILE,
        ..Entry::default()
    }
}

/// The entry of a TH or OC, without sender and commodity: "A period's charge
/// and usage are its TH's totals, a one-time charge's charge is its Charge
/// Amount; days and usage are kept for periods only. Fields that a kind lacks
/// are 0". An original's state is open, 0.
fn entry_of(row: &Row) -> Entry {
    let (start, end) = row.period.unwrap_or_default();
    let is_period = row.record_type == RecordType::PeriodHeader;
    Entry {
        kind: if is_period { kind::PERIOD } else { kind::ONE_TIME_CHARGE },
        record_id: row.record_id,
        site: row.site.unwrap_or_default(),
        start,
        end,
        charge: row.charge,
        usage: row.usage,
        state: if row.is_cancel { state::CANCEL } else { 0 },
        cancelled_id: row.reference.filter(|_| row.is_cancel).unwrap_or_default(),
        ..Entry::default()
    }
}
