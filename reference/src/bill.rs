//! A file's records as numbers, each field read once.

use crate::fields::{fixed_digits, value_of, Amount};
use crate::file::{Record, RecordType, Records, MOST_FIELDS};
use crate::periods::Period;

/// "commodity (1 EL, 2 NG)".
#[derive(Clone, Copy, Debug, PartialEq, Eq)]
pub enum Commodity {
    /// EL, electricity, whose usage is in KWH.
    Electricity = 1,
    /// NG, natural gas, whose usage is in GJ.
    NaturalGas = 2,
}

impl Commodity {
    /// The commodity that has this Commodity Code.
    pub fn of_code(code: &[u8]) -> Option<Self> {
        match code {
            b"EL" => Some(Commodity::Electricity),
            b"NG" => Some(Commodity::NaturalGas),
            _ => None,
        }
    }

    /// The Commodity Code of Table A5-2.
    pub const fn code(self) -> &'static str {
        match self {
            Commodity::Electricity => "EL",
            Commodity::NaturalGas => "NG",
        }
    }

    /// Test 7: "Usage UOM is KWH for EL and GJ for NG".
    pub const fn usage_unit(self) -> &'static str {
        match self {
            Commodity::Electricity => "KWH",
            Commodity::NaturalGas => "GJ",
        }
    }
}

/// What the tests from 4 on read of a record.
#[derive(Clone, Debug)]
pub struct Row {
    /// The type.
    pub record_type: RecordType,
    /// Which fields are filled: a bit for each, the first field's the lowest.
    pub filled: u32,
    /// The Record ID, 0 if it is empty, which test 5 forbids.
    pub record_id: u64,
    /// The Parent ID; FH has none.
    pub parent_id: Option<u64>,
    /// The place of the parent: the nearest preceding record of the parent's
    /// type. FH has none.
    pub parent: Option<usize>,
    /// The Site ID, where the type has one.
    pub site: Option<u64>,
    /// Start and end day, where both are filled.
    pub period: Option<Period>,
    /// Whether the Cancel Indicator is Y.
    pub is_cancel: bool,
    /// The Reference ID of a TH or OC, where it is filled.
    pub reference: Option<u64>,
    /// What the Usage Total or Usage Amount counts as, in units of its last
    /// place.
    pub usage: i64,
    /// What the Charge Total or Charge Amount counts as, in units of its last
    /// place.
    pub charge: i64,
}

impl Row {
    /// Whether the record is booked: TH and OC are.
    pub fn is_booked(&self) -> bool {
        matches!(self.record_type, RecordType::PeriodHeader | RecordType::OneTimeCharge)
    }

    /// Whether the record has a Charge Amount: CH and OC have.
    pub fn has_charge_amount(&self) -> bool {
        matches!(self.record_type, RecordType::TariffCharge | RecordType::OneTimeCharge)
    }

    /// Whether the record has a Usage Amount (DU) or a Charge Amount.
    pub fn has_amount(&self) -> bool {
        self.record_type == RecordType::UsageDeterminant || self.has_charge_amount()
    }
}

/// A file's header and records as numbers.
#[derive(Clone, Debug)]
pub struct Bill<'file> {
    /// FH's Retailer ID.
    pub retailer: u64,
    /// FH's Sender ID, four digits.
    pub sender: &'file [u8],
    /// FH's commodity.
    pub commodity: Commodity,
    /// What FT's File Record Count counts as.
    pub record_count: i64,
    /// The records in file order.
    pub rows: Vec<Row>,
}

impl<'file> Bill<'file> {
    /// Reads records that pass tests 2 to 7. None if they don't.
    pub fn of(records: &Records<'file>) -> Option<Self> {
        Self::with_rows(records, rows_of(records).ok()?)
    }

    /// The bill of records that pass tests 2 to 7 and of their rows. None if
    /// they don't.
    pub(crate) fn with_rows(records: &Records<'file>, rows: Vec<Row>) -> Option<Self> {
        let (header, trailer) = (records.first()?, records.last()?);
        Some(Bill {
            retailer: Values::of(&header)?.get(Some(4))? as u64,
            sender: header.field(5),
            commodity: Commodity::of_code(header.field(6))?,
            record_count: Values::of(&trailer)?.amount(Some(4)).or_zero(),
            rows,
        })
    }

    /// The Sender ID as a number.
    pub fn sender_id(&self) -> u64 {
        fixed_digits(self.sender, 4).unwrap_or_default()
    }

    /// The Record ID of FH.
    pub fn file_id(&self) -> u64 {
        self.rows[0].record_id
    }
}

/// The rows of a file's records, or the place of the first record that fails
/// test 3: "every field that isn't empty fits its type."
pub(crate) fn rows_of(records: &Records) -> Result<Vec<Row>, usize> {
    let mut rows = Vec::with_capacity(records.len());
    let mut nearest = [None; 9];
    for (place, record) in records.iter().enumerate() {
        let parent = record.record_type.parent().and_then(|parent| nearest[parent as usize]);
        rows.push(row_of(&record, parent).ok_or(place)?);
        nearest[record.record_type as usize] = Some(place);
    }
    Ok(rows)
}

/// The row of a record, unless a field misses its type.
fn row_of(record: &Record, parent: Option<usize>) -> Option<Row> {
    let record_type = record.record_type;
    let values = Values::of(record)?;
    let number = |number: Option<usize>| values.get(number).map(|value| value as u64);
    let indicator = record_type.cancel_indicator_field();
    Some(Row {
        record_type,
        filled: values.filled,
        record_id: number(Some(1)).unwrap_or_default(),
        parent_id: number(Some(2)),
        parent,
        site: number(record_type.site_field()),
        period: record_type
            .period_fields()
            .and_then(|(start, end)| number(Some(start)).zip(number(Some(end)))),
        is_cancel: indicator.is_some_and(|number| record.field(number) == b"Y"),
        reference: number(record_type.reference_field()),
        usage: values.amount(record_type.usage_field()).or_zero(),
        charge: values.amount(record_type.charge_field()).or_zero(),
    })
}

/// The values of a record's fields.
struct Values {
    /// Which fields are filled: a bit for each, the first field's the lowest.
    filled: u32,
    values: [i64; MOST_FIELDS],
}

impl Values {
    /// Reads the fields of a record, unless one misses its type.
    fn of(record: &Record) -> Option<Self> {
        let mut read = Values { filled: 0, values: [0; MOST_FIELDS] };
        for (place, (description, field)) in record.described_fields().enumerate() {
            if !field.is_empty() {
                read.values[place] = value_of(description.field_type, field)?;
                read.filled |= 1 << place;
            }
        }
        Some(read)
    }

    /// The value of the field of a number, if the type has it and it is
    /// filled.
    fn get(&self, number: Option<usize>) -> Option<i64> {
        let place = number? - 1;
        (self.filled >> place & 1 == 1).then(|| self.values[place])
    }

    /// The amount in the field of a number, which fits its type. Where the type
    /// has no such field it is missing.
    fn amount(&self, number: Option<usize>) -> Amount {
        self.get(number).map_or(Amount::Missing, Amount::Value)
    }
}
