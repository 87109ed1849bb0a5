//! The ledgers that Book, Totals and Find are timed on: sound ones, some of them made to hurt, and one with an entry at fault.

use reference::bill::Commodity;
use reference::file::RecordType;
use reference::generate::draft::{Draft, DraftRecord};
use reference::generate::{Generator, Request, Style};
use reference::ledger::Entry;
use std::collections::HashMap;

/// The senders of the files, who use the same Record IDs.
pub const SENDERS: [u64; 3] = [40, 41, 7_000];

/// How many buckets the proved code's hash table has for the keys of more than 1,024 entries.
const BUCKETS: u64 = 16_384;

/// IDs have at most 15 digits.
const RECORD_ID_LIMIT: u64 = 1_000_000_000_000_000;

/// The bucket of a sender and a Record ID in the proved code's hash table.
fn bucket(sender: u64, record_id: u64) -> u64 {
    let key = (sender << 50) + record_id;
    let folded = key % (1 << 32) + key / (1 << 32);
    (folded * 2_135_587_861 / 2) % (1 << 32) * BUCKETS / (1 << 32)
}

/// Draws ledgers, each another one.
pub struct Ledgers {
    pub generator: Generator,
}

impl Ledgers {
    pub fn new() -> Ledgers {
        Ledgers { generator: Generator::with_senders(5, Style::Varied, &SENDERS) }
    }

    /// A full ledger of so many entries, from bookings of files of many sites, with cancels and their rebills.
    pub fn full(&mut self, entries: usize) -> Vec<Entry> {
        let mut run = vec![Entry::default(); entries];
        let mut used = 0;
        self.generator.begin_ledger();
        while used < entries {
            let left = entries - used;
            let request = self.request(left);
            let draft = self.generator.valid(&request);
            // A single entry left would be too few for any file.
            if entry_count(&draft) == left || entry_count(&draft) + 2 <= left {
                used += self.generator.book_draft(&draft, &mut run, used);
            }
        }
        run
    }

    /// As `full`, with all sender and Record ID pairs in one bucket of the proved code's hash table.
    pub fn in_one_bucket(&mut self, entries: usize) -> Vec<Entry> {
        let mut run = self.full(entries);
        let random = &mut self.generator.random;
        let only = random.below(BUCKETS);
        let mut replacements: HashMap<(u64, u64), u64> = HashMap::new();
        let mut replace = |sender: u64, record_id: u64| {
            let draw = || loop {
                let record_id = random.below(RECORD_ID_LIMIT);
                if bucket(sender, record_id) == only {
                    return record_id;
                }
            };
            *replacements.entry((sender, record_id)).or_insert_with(draw)
        };
        for entry in &mut run {
            entry.record_id = replace(entry.sender, entry.record_id);
            if entry.cancelled_id != 0 {
                entry.cancelled_id = replace(entry.sender, entry.cancelled_id);
            }
        }
        run
    }

    /// As `full`, but the last entry has the sender and Record ID of the first.
    pub fn with_a_repeated_key(&mut self, entries: usize) -> Vec<Entry> {
        let mut run = self.full(entries);
        let (sender, record_id) = (run[0].sender, run[0].record_id);
        let last = run.last_mut().expect("the ledger has entries");
        (last.sender, last.record_id) = (sender, record_id);
        run
    }

    /// A request for a file of up to about a hundred entries, of fewer where little is left.
    fn request(&mut self, left: usize) -> Request {
        let random = &mut self.generator.random;
        Request {
            sender: random.place(SENDERS.len()),
            commodity: random.pick(&[Commodity::Electricity, Commodity::Electricity, Commodity::NaturalGas]),
            sites: (left / 8).min(40),
            periods: random.pick(&[1, 1, 2]),
            one_time_sites: (left / 40).min(4),
            cancels: (left / 16).min(12),
        }
    }
}

/// The number of entries that a file appends.
fn entry_count(draft: &Draft) -> usize {
    let is_booked = |record: &DraftRecord| matches!(record.record_type, RecordType::PeriodHeader | RecordType::OneTimeCharge);
    1 + draft.places(is_booked).len()
}
