//! Small files that cancel stored entries, most of them with rebills, and with
//! one thing about a cancel wrong where that is wanted.

use std::collections::HashSet;

use crate::bill::Commodity;
use crate::calendar::LAST_DAY;
use crate::file::RecordType;
use crate::generate::draft::{Draft, DraftRecord};
use crate::generate::puzzle::{
    one_time_charge, puzzle_draft, puzzle_site_header, set_totals, Item,
};
use crate::generate::random::Random;
use crate::generate::Generator;
use crate::ledger::{kind, state, Entry};

/// What is wrong with a cancel. Test 6 sees the first, test 40 the last two, and
/// test 39 the others.
#[derive(Clone, Copy, Debug, PartialEq, Eq)]
pub enum Mistake {
    /// It has no Reference ID.
    NoReference,
    /// Its Reference ID is likely nobody's.
    UnknownReference,
    /// Another sender sends it.
    OtherSender,
    /// It is of the other commodity.
    OtherCommodity,
    /// A one-time charge names a period, or a period a one-time charge.
    OtherKind,
    /// It is of another site.
    OtherSite,
    /// Its days are others. Of a one-time charge no days are compared.
    OtherDays,
    /// What it names is cancelled, a cancel or a file.
    NotOpen,
    /// An earlier cancel of the file names the same.
    Twice,
    /// It names an original of its own file.
    OwnOriginal,
    /// Its charge isn't the opposite.
    OtherCharge,
    /// Its usage isn't the opposite; a one-time charge has none.
    OtherUsage,
}

/// All mistakes.
pub const MISTAKES: [Mistake; 12] = [
    Mistake::NoReference,
    Mistake::UnknownReference,
    Mistake::OtherSender,
    Mistake::OtherCommodity,
    Mistake::OtherKind,
    Mistake::OtherSite,
    Mistake::OtherDays,
    Mistake::NotOpen,
    Mistake::Twice,
    Mistake::OwnOriginal,
    Mistake::OtherCharge,
    Mistake::OtherUsage,
];

/// A TH or OC of a file of cancels.
#[derive(Clone)]
struct Planned {
    kind: u64,
    item: Item,
}

impl Planned {
    /// The cancel of an entry.
    fn cancel(entry: &Entry) -> Self {
        let item = Item {
            site: entry.site,
            days: entry.period(),
            charge: -entry.charge,
            usage: -entry.usage,
            is_cancel: true,
            reference: Some(entry.record_id),
        };
        Planned { kind: entry.kind, item }
    }

    /// An original that is billed in place of what a cancel names.
    fn rebill(&self, charge: i64) -> Self {
        let (charge, usage) = (charge, -self.item.usage);
        let item = Item { charge, usage, is_cancel: false, reference: None, ..self.item };
        Planned { item, ..*self }
    }
}

impl Generator {
    /// A file that cancels one to three stored entries that are live or held,
    /// if there are any. A mistake is made with the first of them.
    pub fn cancel_file(
        &mut self,
        stored: &[Entry],
        mistake: Option<Mistake>,
        id_limit: u64,
    ) -> Option<Vec<u8>> {
        let entries = self.entries_to_cancel(stored, mistake)?;
        let (sender, commodity) = self.header_of_cancels(&entries[0], mistake);
        let mut draft = puzzle_draft(sender, commodity);
        for (number, entry) in entries.iter().enumerate() {
            let mistake = mistake.filter(|_| number == 0);
            for planned in self.cancel_and_rebill(stored, entry, mistake) {
                self.add_planned(&mut draft, &planned);
            }
        }
        draft.records.push(DraftRecord::new(RecordType::FileTrailer));
        self.set_puzzle_ids(&mut draft, id_limit);
        if mistake == Some(Mistake::OwnOriginal) {
            name_own_original(&mut draft);
        }
        set_totals(&mut draft);
        Some(self.write(&draft))
    }

    /// One to three live or held entries of a sender and commodity. The first
    /// is often one that was billed in place of a cancelled one; without a
    /// Reference ID it is one with Record ID 0 where there is any, which an
    /// empty field must not be taken for.
    fn entries_to_cancel(
        &mut self,
        stored: &[Entry],
        mistake: Option<Mistake>,
    ) -> Option<Vec<Entry>> {
        let mut open: Vec<&Entry> = stored.iter().filter(|entry| entry.is_live_or_held()).collect();
        let cancelled = stored.iter().filter(|entry| entry.state == state::CANCELLED);
        let cancelled: HashSet<_> = cancelled.map(what_is_billed).collect();
        let is_preferred = |entry: &Entry| match mistake {
            Some(Mistake::NoReference) => entry.record_id == 0,
            _ => cancelled.contains(&what_is_billed(entry)),
        };
        let preferred: Vec<usize> =
            (0..open.len()).filter(|&place| is_preferred(open[place])).collect();
        let place = match self.random.percent(50) && !preferred.is_empty() {
            true => self.random.pick(&preferred),
            false => self.random.place(open.len().max(1)),
        };
        let first = **open.get(place)?;
        open.swap_remove(place);
        open.retain(|entry| (entry.sender, entry.commodity) == (first.sender, first.commodity));
        let mut entries = vec![first];
        while entries.len() < 3 && !open.is_empty() && self.random.percent(40) {
            entries.push(*open.swap_remove(self.random.place(open.len())));
        }
        Some(entries)
    }

    /// The sender and commodity of the file that cancels an entry.
    fn header_of_cancels(&mut self, entry: &Entry, mistake: Option<Mistake>) -> (u64, Commodity) {
        let others: Vec<u64> =
            self.senders.iter().copied().filter(|&sender| sender != entry.sender).collect();
        let sender = match mistake {
            Some(Mistake::OtherSender) if !others.is_empty() => self.random.pick(&others),
            _ => entry.sender,
        };
        let is_electricity = entry.commodity == Commodity::Electricity as u64;
        let commodity = match is_electricity != (mistake == Some(Mistake::OtherCommodity)) {
            true => Commodity::Electricity,
            false => Commodity::NaturalGas,
        };
        (sender, commodity)
    }

    /// The cancel of an entry, in most cases with a rebill after or before it.
    fn cancel_and_rebill(
        &mut self,
        stored: &[Entry],
        entry: &Entry,
        mistake: Option<Mistake>,
    ) -> Vec<Planned> {
        let cancel = Planned::cancel(entry);
        let mut planned = match mistake {
            Some(Mistake::OwnOriginal) => vec![cancel.rebill(-cancel.item.charge), cancel],
            Some(Mistake::Twice) => vec![cancel.clone(), cancel],
            _ => vec![self.with_mistake(stored, cancel, mistake)],
        };
        if self.random.percent(60) {
            let charge = self.random.below(20_000) as i64 - 2_000;
            let rebill = planned[0].rebill(charge);
            let place = self.random.place(planned.len() + 1);
            planned.insert(place, rebill);
        }
        planned
    }

    /// A cancel with something about it wrong.
    fn with_mistake(
        &mut self,
        stored: &[Entry],
        cancel: Planned,
        mistake: Option<Mistake>,
    ) -> Planned {
        let random = &mut self.random;
        let Planned { mut kind, mut item } = cancel;
        match mistake {
            Some(Mistake::NoReference) => item.reference = None,
            Some(Mistake::UnknownReference) => {
                item.reference = Some(random.below(1_000_000_000_000_000));
            }
            Some(Mistake::OtherKind) => {
                kind = kind::PERIOD + kind::ONE_TIME_CHARGE - kind;
                item.usage = 0;
            }
            Some(Mistake::OtherSite) => item.site = item.site.checked_sub(1).unwrap_or(1),
            Some(Mistake::OtherDays) => item.days = other_days(random, item.days),
            Some(Mistake::NotOpen) => {
                let not_open: Vec<&Entry> =
                    stored.iter().filter(|entry| !entry.is_live_or_held()).collect();
                if !not_open.is_empty() {
                    return closed_entry_cancel(item, not_open[random.place(not_open.len())]);
                }
            }
            Some(Mistake::OtherCharge) => item.charge += random.pick(&[1, -1, 100]),
            Some(Mistake::OtherUsage) => item.usage += random.pick(&[1, -1, 10_000]),
            _ => {}
        }
        Planned { kind, item }
    }

    /// Adds a record under a site header of its own, a period with its usage
    /// and charge.
    fn add_planned(&mut self, draft: &mut Draft, planned: &Planned) {
        let header = puzzle_site_header(draft, planned.item.site, None);
        draft.records.push(header);
        match planned.kind {
            kind::PERIOD => self.add_period(draft, &planned.item),
            _ => draft.records.push(one_time_charge(&planned.item)),
        }
    }
}

/// Days of which one end is a day off.
fn other_days(random: &mut Random, (start, end): (u64, u64)) -> (u64, u64) {
    match random.below(4) {
        0 if start > 0 => (start - 1, end),
        1 if start < end => (start + 1, end),
        2 if start < end => (start, end - 1),
        _ if end < u64::from(LAST_DAY) => (start, end + 1),
        _ => (start.saturating_sub(1), end),
    }
}

/// What an entry has in common with the one that it is billed in place of: the
/// sender, the kind, the site and the days.
fn what_is_billed(entry: &Entry) -> (u64, u64, u64, (u64, u64)) {
    (entry.sender, entry.kind, entry.site, entry.period())
}

/// The cancel of an entry that can't be cancelled: of a cancel or a cancelled
/// entry as it would be of an open one, of a file the reference to it.
fn closed_entry_cancel(item: Item, closed: &Entry) -> Planned {
    match closed.kind {
        kind::FILE => {
            let item = Item { usage: 0, reference: Some(closed.record_id), ..item };
            Planned { kind: kind::ONE_TIME_CHARGE, item }
        }
        _ => Planned::cancel(closed),
    }
}

/// Lets the first cancel of a file name the first original of its kind.
fn name_own_original(draft: &mut Draft) {
    let is_booked = |record: &DraftRecord| record.record_type.reference_field().is_some();
    let Some(&cancel) = draft.places(|record| is_booked(record) && record.is_cancel()).first()
    else {
        return;
    };
    let record_type = draft.records[cancel].record_type;
    let originals = draft.places(|record| record.record_type == record_type && !record.is_cancel());
    if let (Some(&original), Some(number)) = (originals.first(), record_type.reference_field()) {
        let record_id = draft.records[original].field(1).to_owned();
        draft.records[cancel].set(number, record_id);
    }
}
