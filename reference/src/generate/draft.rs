//! A file as records of text fields, before it is written as bytes.

use crate::bill::Commodity;
use crate::conditions::{condition_of, Condition, ConditionalField};
use crate::fields::{amount_of, Amount, FieldType};
use crate::file::RecordType;
use crate::generate::content::{OneTimeCharge, TariffBillPeriod};

/// A record to be written.
#[derive(Clone, Debug)]
pub struct DraftRecord {
    /// The type, also in field 3.
    pub record_type: RecordType,
    /// The fields as text.
    pub fields: Vec<String>,
}

impl DraftRecord {
    /// A record of a type, all fields but the third empty.
    pub fn new(record_type: RecordType) -> Self {
        let mut record =
            DraftRecord { record_type, fields: vec![String::new(); record_type.fields().len()] };
        record.set(3, record_type.code());
        record
    }

    /// The field of this number, counted from 1.
    pub fn field(&self, number: usize) -> &str {
        &self.fields[number - 1]
    }

    /// Replaces the field of this number.
    pub fn set(&mut self, number: usize, text: impl Into<String>) {
        self.fields[number - 1] = text.into();
    }

    /// The amount in the field of this number. A field of another type is none.
    pub fn amount(&self, number: usize) -> Amount {
        match self.record_type.fields()[number - 1].field_type {
            FieldType::Number(precision, places) => {
                amount_of(self.field(number).as_bytes(), precision, places)
            }
            _ => Amount::Misses,
        }
    }

    /// Adds to the amount in the field of this number.
    pub fn shift(&mut self, number: usize, units: i64) {
        let FieldType::Number(_, places) = self.record_type.fields()[number - 1].field_type else {
            return;
        };
        let shifted = self.amount(number).or_zero() + units;
        self.set(number, amount_text(shifted, places));
    }

    /// Whether the Cancel Indicator is Y.
    pub fn is_cancel(&self) -> bool {
        self.record_type.cancel_indicator_field().is_some_and(|number| self.field(number) == "Y")
    }

    /// Whether the record is a child of a TH.
    pub fn is_period_child(&self) -> bool {
        self.record_type.parent() == Some(RecordType::PeriodHeader)
    }
}

/// An amount in units of its last place as text, without zeros at the end of
/// its places.
pub fn amount_text(units: i64, places: u32) -> String {
    let scale = 10_u64.pow(places);
    let magnitude = units.unsigned_abs();
    let sign = if units < 0 { "-" } else { "" };
    let (whole, fraction) = (magnitude / scale, magnitude % scale);
    if fraction == 0 {
        return format!("{sign}{whole}");
    }
    let fraction = format!("{fraction:0width$}", width = places as usize);
    format!("{sign}{whole}.{}", fraction.trim_end_matches('0'))
}

/// An original record of a file.
#[derive(Clone, Debug)]
pub enum Original {
    /// A tariff bill period with its determinants and charges.
    Period(TariffBillPeriod),
    /// A one-time charge.
    OneTime(OneTimeCharge),
}

/// An original that was sent.
#[derive(Clone, Debug)]
pub struct Sent {
    /// The sender.
    pub sender: u64,
    /// The commodity.
    pub commodity: Commodity,
    /// The Record ID.
    pub record_id: u64,
    /// The original itself.
    pub original: Original,
}

/// A file to be written, with what it sends and cancels.
#[derive(Clone, Debug)]
pub struct Draft {
    /// The sender.
    pub sender: u64,
    /// The commodity.
    pub commodity: Commodity,
    /// The records.
    pub records: Vec<DraftRecord>,
    /// The originals among them.
    pub originals: Vec<Sent>,
    /// The Record IDs that the cancels name.
    pub cancelled: Vec<u64>,
}

/// How lines end.
#[derive(Clone, Copy, Debug, PartialEq, Eq)]
pub enum LineEnd {
    /// Byte 10.
    Feed,
    /// Bytes 13 and 10.
    ReturnAndFeed,
}

impl LineEnd {
    const fn bytes(self) -> &'static [u8] {
        match self {
            LineEnd::Feed => b"\n",
            LineEnd::ReturnAndFeed => b"\r\n",
        }
    }
}

impl Draft {
    /// The file's bytes; each line asks for its end, and the last may go
    /// without.
    pub fn write(&self, mut line_end: impl FnMut() -> LineEnd, ends_last: bool) -> Vec<u8> {
        let mut file = Vec::new();
        let last = self.records.len().saturating_sub(1);
        for (place, record) in self.records.iter().enumerate() {
            file.extend_from_slice(record.fields.join(",").as_bytes());
            if place < last || ends_last {
                file.extend_from_slice(line_end().bytes());
            }
        }
        file
    }

    /// The file's bytes with byte 10 at the end of each line.
    pub fn plain_bytes(&self) -> Vec<u8> {
        self.write(|| LineEnd::Feed, true)
    }

    /// The places of the records that meet a condition.
    pub fn places(&self, meets: impl Fn(&DraftRecord) -> bool) -> Vec<usize> {
        let meeting = self.records.iter().enumerate().filter(|(_, record)| meets(record));
        meeting.map(|(place, _)| place).collect()
    }

    /// The place of the nearest TH before a place.
    pub fn period_header(&self, place: usize) -> Option<usize> {
        let is_header = |record: &DraftRecord| record.record_type == RecordType::PeriodHeader;
        self.records[..place].iter().rposition(is_header)
    }

    /// Whether a condition of test 6 holds of the record at a place.
    pub fn meets(&self, place: usize, condition: Condition) -> bool {
        let record = &self.records[place];
        let site_status = || {
            let header = &self.records[self.period_header(place)?];
            header.record_type.site_status_field().map(|number| header.field(number).as_bytes())
        };
        let field = |number: usize| record.field(number).as_bytes();
        condition.holds(record.record_type, field, site_status)
    }

    /// Whether test 6 asks for the field of a number in the record at a place.
    pub fn asks_for(&self, place: usize, number: usize) -> bool {
        condition_of(self.records[place].record_type, number)
            .is_some_and(|condition| self.meets(place, condition))
    }

    /// The places of the records in which test 6 asks for a field.
    pub fn places_that_ask(&self, field: &ConditionalField) -> Vec<usize> {
        let places = self.places(|record| record.record_type == field.record_type);
        places.into_iter().filter(|&place| self.meets(place, field.condition)).collect()
    }

    /// Adds to a record's Usage or Charge Amount, and to all totals over it.
    pub fn shift_with_totals(&mut self, place: usize, units: i64) {
        let record = &self.records[place];
        let site = record.field(4).to_owned();
        let is_child = record.is_period_child();
        let (number, totals_number) = match record.record_type {
            RecordType::UsageDeterminant => (16, 12),
            RecordType::TariffCharge => (18, 14),
            RecordType::OneTimeCharge => (10, 14),
            _ => return,
        };
        self.records[place].shift(number, units);
        if let Some(place) = self.period_header(place).filter(|_| is_child) {
            self.records[place].shift(totals_number, units);
        }
        for record in &mut self.records {
            match record.record_type {
                RecordType::SiteHeader if record.field(4) == site => {
                    record.shift(totals_number, units);
                }
                RecordType::FileTrailer if totals_number == 14 => record.shift(5, units),
                _ => {}
            }
        }
    }
}
