//! Small files in which few sites, days, amounts and Record IDs meet often:
//! overlaps within several billing periods, records under another site's
//! header, cancels of stored entries that nearly fit, repeated Record IDs.

use crate::bill::Commodity;
use crate::file::RecordType;
use crate::generate::content::date;
use crate::generate::draft::{amount_text, Draft, DraftRecord};
use crate::generate::{Generator, RETAILER};
use crate::ledger::{kind, Entry};

/// Sites are 1 to this.
const SITES: u64 = 3;

/// Days are from this on.
const FIRST_DAY: u64 = 100;

/// So many days.
const DAYS: u64 = 14;

/// The Record IDs of a puzzle are below this: so few that they repeat often.
const FEW_IDS: u64 = 400;

/// A TH or OC to be written: its site, days and amounts, and what it cancels.
#[derive(Clone)]
pub(super) struct Item {
    pub(super) site: u64,
    pub(super) days: (u64, u64),
    pub(super) charge: i64,
    pub(super) usage: i64,
    pub(super) is_cancel: bool,
    pub(super) reference: Option<u64>,
}

impl Generator {
    /// A puzzle, some of whose cancels name stored entries. Most pass Check.
    pub fn puzzle(&mut self, stored: &[Entry]) -> Vec<u8> {
        self.puzzle_with_ids(stored, FEW_IDS)
    }

    /// The same with Record IDs below a limit, at least 400.
    pub fn puzzle_with_ids(&mut self, stored: &[Entry], id_limit: u64) -> Vec<u8> {
        let sender = self.senders[self.random.place(self.senders.len())];
        let commodity = match self.random.percent(85) {
            true => Commodity::Electricity,
            false => Commodity::NaturalGas,
        };
        let mut draft = puzzle_draft(sender, commodity);
        for _ in 0..self.random.between(1, 3) {
            self.add_site(&mut draft, stored);
        }
        draft.records.push(DraftRecord::new(RecordType::FileTrailer));
        self.set_puzzle_ids(&mut draft, id_limit);
        set_totals(&mut draft);
        self.disturb(&mut draft);
        self.write(&draft)
    }

    /// A site header with up to three periods and two one-time charges.
    fn add_site(&mut self, draft: &mut Draft, stored: &[Entry]) {
        let site = self.random.between(1, SITES);
        let billing_period = self.some_days();
        let is_billed = self.random.percent(75);
        let header = puzzle_site_header(draft, site, is_billed.then_some(billing_period));
        draft.records.push(header);
        let periods = self.random.below(4);
        let one_time_charges = self.random.below(3).max(u64::from(periods == 0));
        for _ in 0..periods {
            let item = self.item(draft, kind::PERIOD, site, stored);
            self.add_period(draft, &item);
        }
        for _ in 0..one_time_charges {
            let item = self.item(draft, kind::ONE_TIME_CHARGE, site, stored);
            draft.records.push(one_time_charge(&item));
        }
    }

    pub(super) fn some_days(&mut self) -> (u64, u64) {
        let first = self.random.below(DAYS);
        let last = self.random.between(first, DAYS - 1);
        (FIRST_DAY + first, FIRST_DAY + last)
    }

    /// An original, a cancel of a stored entry that may differ in a little, or
    /// a cancel of whatever.
    fn item(&mut self, draft: &mut Draft, wanted: u64, site: u64, stored: &[Entry]) -> Item {
        let original = Item {
            site: if self.random.percent(2) { self.random.between(1, SITES) } else { site },
            days: self.some_days(),
            charge: self.random.below(4) as i64 * 100 - 100,
            usage: self.random.below(4) as i64 * 10_000 - 10_000,
            is_cancel: false,
            reference: None,
        };
        let is_strict = self.random.percent(90);
        let can_be_cancelled = |entry: &&Entry| {
            entry.sender == draft.sender
                && entry.commodity == draft.commodity as u64
                && entry.is_live_or_held()
                && !draft.cancelled.contains(&entry.record_id)
        };
        let fitting: Vec<&Entry> = stored
            .iter()
            .filter(|entry| entry.kind == wanted && entry.site == site)
            .filter(|entry| !is_strict || can_be_cancelled(entry))
            .collect();
        if fitting.is_empty() || self.random.percent(60) {
            let is_cancel = self.random.percent(3);
            let reference = self.random.percent(50).then(|| self.random.below(400));
            return Item { is_cancel, reference: reference.filter(|_| is_cancel), ..original };
        }
        let named = fitting[self.random.place(fitting.len())];
        draft.cancelled.push(named.record_id);
        let mut cancel = Item {
            site,
            days: named.period(),
            charge: -named.charge,
            usage: -named.usage,
            is_cancel: true,
            reference: Some(named.record_id),
        };
        match self.random.below(30) {
            0 => cancel.charge += 1,
            1 => cancel.usage += 1,
            2 => cancel.days = original.days,
            3 => cancel.reference = None,
            _ => {}
        }
        cancel
    }

    /// A period with its usage and charge in one or two records each.
    pub(super) fn add_period(&mut self, draft: &mut Draft, item: &Item) {
        draft.records.push(period_header(draft.commodity, item));
        for part in self.amount_parts(item.usage) {
            let mut record = dated(RecordType::UsageDeterminant, self.child_site(item), item);
            record.set(8, "U");
            record.set(16, amount_text(part, 4));
            record.set(17, draft.commodity.usage_unit());
            draft.records.push(record);
        }
        if self.random.percent(20) {
            let site = self.child_site(item);
            draft.records.push(miscellaneous(site, item));
        }
        for part in self.amount_parts(item.charge) {
            let mut record = dated(RecordType::TariffCharge, self.child_site(item), item);
            for (number, text) in [(8, "X"), (9, "5001"), (10, "E"), (11, "E"), (12, "1")] {
                record.set(number, text);
            }
            for (number, text) in [(13, "1"), (14, "KWH"), (15, "P"), (16, "1"), (17, "1")] {
                record.set(number, text);
            }
            record.set(18, amount_text(part, 2));
            record.set(19, "N");
            draft.records.push(record);
        }
    }

    /// An amount as no, one or two parts.
    fn amount_parts(&mut self, units: i64) -> Vec<i64> {
        if units == 0 && self.random.percent(50) {
            return Vec::new();
        }
        if self.random.percent(70) {
            return vec![units];
        }
        let part = self.random.below(500) as i64 - 250;
        vec![part, units - part]
    }

    /// Mostly the parent's site.
    fn child_site(&mut self, item: &Item) -> u64 {
        if self.random.percent(1) {
            self.random.between(1, SITES)
        } else {
            item.site
        }
    }

    /// Different Record IDs below a limit, and the Parent IDs.
    pub(super) fn set_puzzle_ids(&mut self, draft: &mut Draft, id_limit: u64) {
        let mut taken = Vec::new();
        let mut nearest = [0; 9];
        for record in &mut draft.records {
            let record_id = self.fresh_id(&taken, id_limit);
            taken.push(record_id);
            record.set(1, record_id.to_string());
            if let Some(parent) = record.record_type.parent() {
                record.set(2, u64::to_string(&nearest[parent as usize]));
            }
            nearest[record.record_type as usize] = record_id;
        }
    }

    /// An ID that isn't taken, now and then 0 where that is left.
    fn fresh_id(&mut self, taken: &[u64], id_limit: u64) -> u64 {
        if self.random.below(200) == 0 && !taken.contains(&0) {
            return 0;
        }
        loop {
            let record_id = self.random.below(id_limit);
            if !taken.contains(&record_id) {
                return record_id;
            }
        }
    }

    /// Now and then changes a total, or a Record ID to another's.
    fn disturb(&mut self, draft: &mut Draft) {
        if self.random.percent(85) {
            return;
        }
        let place = self.random.place(draft.records.len());
        let other = draft.records[self.random.place(draft.records.len())].field(1).to_owned();
        let record = &mut draft.records[place];
        match self.random.below(3) {
            0 => record.set(1, other),
            1 => record.shift(record.record_type.usage_field().unwrap_or(1), 1),
            _ => record.shift(record.record_type.charge_field().unwrap_or(1), 1),
        }
    }
}

/// A file of nothing but its header yet, without Record ID.
pub(super) fn puzzle_draft(sender: u64, commodity: Commodity) -> Draft {
    let mut header = DraftRecord::new(RecordType::FileHeader);
    header.set(4, format!("{RETAILER:09}"));
    header.set(5, format!("{sender:04}"));
    header.set(6, commodity.code());
    header.set(7, format!("{}000000", date((FIRST_DAY + DAYS) as u32)));
    Draft { sender, commodity, records: vec![header], originals: Vec::new(), cancelled: Vec::new() }
}

/// A site header with no totals yet.
pub(super) fn puzzle_site_header(
    draft: &Draft,
    site: u64,
    billing_period: Option<(u64, u64)>,
) -> DraftRecord {
    let mut header = DraftRecord::new(RecordType::SiteHeader);
    header.set(4, site_text(site));
    if let Some(days) = billing_period {
        set_days(&mut header, days);
    }
    header.set(7, format!("{:04}", draft.sender));
    header.set(8, "0001");
    header.set(9, "98");
    header.set(11, "C1");
    header.set(13, draft.commodity.usage_unit());
    header.set(16, "2020");
    header
}

fn site_text(site: u64) -> String {
    format!("{site:013}")
}

fn set_days(record: &mut DraftRecord, (start, end): (u64, u64)) {
    record.set(5, date(start as u32));
    record.set(6, date(end as u32));
}

fn flag(holds: bool) -> &'static str {
    if holds {
        "Y"
    } else {
        "N"
    }
}

fn dated(record_type: RecordType, site: u64, item: &Item) -> DraftRecord {
    let mut record = DraftRecord::new(record_type);
    record.set(4, site_text(site));
    set_days(&mut record, item.days);
    record.set(7, flag(item.is_cancel));
    record
}

/// Sets the Reference ID, where there is one, and a cancel's reason.
fn set_reference(record: &mut DraftRecord, item: &Item, number: usize, reason: &str) {
    record.set(number, item.reference.map_or(String::new(), |reference| reference.to_string()));
    record.set(number + 1, if item.is_cancel { reason } else { "" });
}

fn period_header(commodity: Commodity, item: &Item) -> DraftRecord {
    let mut record = dated(RecordType::PeriodHeader, item.site, item);
    set_reference(&mut record, item, 8, "3030");
    record.set(10, "R");
    record.set(11, "E");
    record.set(12, amount_text(item.usage, 4));
    record.set(13, commodity.usage_unit());
    record.set(14, amount_text(item.charge, 2));
    record
}

fn miscellaneous(site: u64, item: &Item) -> DraftRecord {
    let mut record = dated(RecordType::MiscellaneousDeterminant, site, item);
    record.set(8, "1");
    record.set(9, "CDAY");
    record.set(10, "DAYS");
    record
}

pub(super) fn one_time_charge(item: &Item) -> DraftRecord {
    let mut record = DraftRecord::new(RecordType::OneTimeCharge);
    record.set(4, site_text(item.site));
    record.set(5, date(item.days.0 as u32));
    record.set(6, flag(item.is_cancel));
    set_reference(&mut record, item, 7, "3070");
    record.set(9, "CONN");
    record.set(10, amount_text(item.charge, 2));
    record.set(11, "N");
    record
}

/// Sets the totals of the site headers and of the trailer.
pub(super) fn set_totals(draft: &mut Draft) {
    let amounts: Vec<(String, i64, i64)> = draft
        .records
        .iter()
        .map(|record| match record.record_type {
            RecordType::UsageDeterminant => {
                (record.field(4).to_owned(), record.amount(16).or_zero(), 0)
            }
            RecordType::TariffCharge => {
                (record.field(4).to_owned(), 0, record.amount(18).or_zero())
            }
            RecordType::OneTimeCharge => {
                (record.field(4).to_owned(), 0, record.amount(10).or_zero())
            }
            _ => (String::new(), 0, 0),
        })
        .collect();
    let count = draft.records.len();
    for record in &mut draft.records {
        if record.record_type == RecordType::SiteHeader {
            let of_site = amounts.iter().filter(|(site, _, _)| site == record.field(4));
            let (usage, charge) = of_site
                .fold((0, 0), |(usage, charge), amounts| (usage + amounts.1, charge + amounts.2));
            record.set(12, amount_text(usage, 4));
            record.set(14, amount_text(charge, 2));
        } else if record.record_type == RecordType::FileTrailer {
            record.set(4, count.to_string());
            record.set(5, amount_text(amounts.iter().map(|amounts| amounts.2).sum(), 2));
        }
    }
}
