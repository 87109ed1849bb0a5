//! Files with one wrong record near their end, and files that are made to hurt: as many Site Headers as a file can have, each with
//! one record under it.

use crate::files::{Files, Ids};
use reference::file::{RecordType, MOST_LINES};
use reference::generate::content::date;
use reference::generate::draft::{Draft, DraftRecord};

/// The tests that a file is made to fail near its end.
pub const LATE_FAILURES: [u32; 12] = [2, 3, 5, 6, 7, 9, 10, 14, 17, 18, 30, 32];

/// How many pairs of a Site Header and a record a file holds between its header and its trailer.
const PAIRS: usize = MOST_LINES / 2 - 1;

/// A Record ID above those of the file header and below that of the trailer.
const FIRST_ID: usize = 1_000_000_000;

const CHARGE_TOTAL: usize = 14;

fn last_place(draft: &Draft, record_type: RecordType) -> usize {
    *draft.places(|record| record.record_type == record_type).last().expect("the file has a record of the type")
}

/// Makes the last record of its type fail a test.
fn make_wrong(draft: &mut Draft, test: u32, record_type: RecordType) {
    let place = last_place(draft, record_type);
    let earlier = draft.places(|record| record.record_type == record_type)[0];
    let earlier = draft.records[earlier].clone();
    let record = &mut draft.records[place];
    match test {
        2 => record.fields.push(String::new()),
        3 => record.set(18, "1.000"),
        5 => record.set(18, ""),
        6 => record.set(13, ""),
        7 => record.set(19, "n"),
        9 => record.set(1, earlier.field(1)),
        10 => record.set(2, earlier.field(1)),
        14 => record.set(6, "20000101"),
        17 => record.set(7, "Y"),
        18 => [5, 6].into_iter().for_each(|day| record.set(day, earlier.field(day))),
        30 | 32 => record.shift(CHARGE_TOTAL, 1),
        _ => panic!("no record is made wrong for test {test}"),
    }
}

impl Files {
    /// A file of as many lines as a file may have, whose last record that can fail a test does.
    pub fn wrong_at_the_end(&mut self, test: u32) -> Vec<u8> {
        let (mut draft, record_type) = match test {
            2 | 3 | 5 | 7 | 9 | 10 | 17 => (self.many_sites_draft(MOST_LINES, Ids::Rising), RecordType::TariffCharge),
            // The last usage of such a file is that of a cumulative meter of an energized site.
            6 => (self.many_sites_draft(MOST_LINES, Ids::Rising), RecordType::UsageDeterminant),
            18 => (self.one_site_draft(MOST_LINES, 1_000), RecordType::PeriodHeader),
            30 => (self.many_sites_draft(MOST_LINES, Ids::Rising), RecordType::SiteHeader),
            _ => (self.many_sites_draft(MOST_LINES, Ids::Rising), RecordType::PeriodHeader),
        };
        make_wrong(&mut draft, test, record_type);
        draft.plain_bytes()
    }

    /// As many sites as a file can have, all in one bucket of the proved code's hash tables.
    pub fn sites_in_one_bucket(&mut self) -> Vec<u8> {
        let sites = self.sites_of_one_bucket(PAIRS);
        let pairs = self.pairs(RecordType::OneTimeCharge, |pair, records| set_site(records, sites[pair]));
        pairs.plain_bytes()
    }

    /// As many headers of one site as a file can have. Each chooses the one period under it, and all periods share days.
    pub fn headers_of_one_site(&mut self) -> Vec<u8> {
        let pairs = self.pairs(RecordType::PeriodHeader, |pair, records| {
            set_site(records, 1);
            for record in records {
                record.set(5, date(4_000 + pair as u32));
                record.set(6, date(8_000 + pair as u32));
            }
        });
        pairs.plain_bytes()
    }

    /// As many sites as a file can have, with the last total of a record type wrong.
    pub fn last_total_wrong(&mut self, child: RecordType, wrong: RecordType) -> Vec<u8> {
        let mut pairs = self.pairs(child, |pair, records| set_site(records, pair as u64 + 1));
        let place = last_place(&pairs, wrong);
        pairs.records[place].set(CHARGE_TOTAL, "1");
        pairs.plain_bytes()
    }

    /// A file of Site Headers and one record of a type under each, all amounts 0.
    fn pairs(&mut self, child: RecordType, mut fill: impl FnMut(usize, &mut [DraftRecord; 2])) -> Draft {
        let mut draft = self.many_sites_draft(256, Ids::Rising);
        let template = |record_type| draft.records[last_place(&draft, record_type)].clone();
        let header = without_amounts(template(RecordType::SiteHeader));
        let child = match child {
            RecordType::OneTimeCharge => one_time_charge(),
            _ => without_amounts(template(child)),
        };
        let mut trailer = template(RecordType::FileTrailer);
        draft.records.truncate(1);
        for pair in 0..PAIRS {
            let mut records = [header.clone(), child.clone()];
            let id = FIRST_ID + 2 * pair;
            let parents = [draft.records[0].field(1).to_owned(), id.to_string()];
            for (place, (record, parent)) in records.iter_mut().zip(parents).enumerate() {
                record.set(1, (id + place).to_string());
                record.set(2, parent);
            }
            fill(pair, &mut records);
            draft.records.extend(records);
        }
        trailer.set(1, (FIRST_ID + 2 * PAIRS).to_string());
        trailer.set(4, MOST_LINES.to_string());
        trailer.set(5, "0");
        draft.records.push(trailer);
        draft
    }
}

fn set_site(records: &mut [DraftRecord; 2], site: u64) {
    records.iter_mut().for_each(|record| record.set(4, format!("{site:013}")));
}

fn without_amounts(mut record: DraftRecord) -> DraftRecord {
    let amounts = [record.record_type.usage_field(), record.record_type.charge_field()];
    amounts.into_iter().flatten().for_each(|number| record.set(number, "0"));
    record
}

fn one_time_charge() -> DraftRecord {
    let mut charge = DraftRecord::new(RecordType::OneTimeCharge);
    for (number, text) in [(5, "20250101"), (6, "N"), (9, "5555"), (10, "0"), (11, "N")] {
        charge.set(number, text);
    }
    charge
}
