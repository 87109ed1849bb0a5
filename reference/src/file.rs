//! The tariff bill file: lines, fields, and the record types of Tables 4-2 to
//! 4-10.

use crate::fields::FieldType::{self, Char, Date, DateTime, Digits, Number, RecordId, Varchar};

/// "A file has at most 1,048,576 bytes".
pub const MOST_BYTES: usize = 1_048_576;

/// "and 4,096 lines."
pub const MOST_LINES: usize = 4_096;

/// "Record types are FH, SH, TH, DU, DD, DM, CH, OC, FT, in field 3."
#[derive(Clone, Copy, Debug, PartialEq, Eq)]
pub enum RecordType {
    /// FH, Table 4-2.
    FileHeader,
    /// SH, Table 4-3.
    SiteHeader,
    /// TH, Table 4-4.
    PeriodHeader,
    /// DU, Table 4-5.
    UsageDeterminant,
    /// DD, Table 4-6.
    DemandDeterminant,
    /// DM, Table 4-7.
    MiscellaneousDeterminant,
    /// CH, Table 4-8.
    TariffCharge,
    /// OC, Table 4-9.
    OneTimeCharge,
    /// FT, Table 4-10.
    FileTrailer,
}

use RecordType::*;

/// Whether a field is marked Mandatory, Conditional or Optional.
#[derive(Clone, Copy, Debug, PartialEq, Eq)]
pub enum Mark {
    /// Populated for every record.
    Mandatory,
    /// Called mandatory, but populated with [null]: FH's Parent ID.
    MandatoryNull,
    /// Populated according to stated production rules.
    Conditional,
    /// Populated at a distributor's discretion.
    Optional,
}

/// A row of Tables 4-2 to 4-10.
#[derive(Clone, Copy, Debug)]
pub struct Field {
    /// The field's name.
    pub name: &'static str,
    /// Its data type and size.
    pub field_type: FieldType,
    /// Its mark.
    pub mark: Mark,
}

const fn mandatory(name: &'static str, field_type: FieldType) -> Field {
    Field { name, field_type, mark: Mark::Mandatory }
}

const fn mandatory_null(name: &'static str, field_type: FieldType) -> Field {
    Field { name, field_type, mark: Mark::MandatoryNull }
}

const fn conditional(name: &'static str, field_type: FieldType) -> Field {
    Field { name, field_type, mark: Mark::Conditional }
}

const fn optional(name: &'static str, field_type: FieldType) -> Field {
    Field { name, field_type, mark: Mark::Optional }
}

const SITE_ID: FieldType = Digits(13);
const DISTRIBUTOR_ID: FieldType = Digits(4);
const RETAILER_ID: FieldType = Digits(9);
const ZONE_ID: FieldType = Digits(4);

/// Table 4-2, Tariff File Header record.
const FILE_HEADER: [Field; 9] = [
    mandatory("Record ID", RecordId),
    mandatory_null("Parent ID", RecordId),
    mandatory("Record Type", Char(2)),
    mandatory("Retailer ID", RETAILER_ID),
    mandatory("Sender ID", DISTRIBUTOR_ID),
    mandatory("Commodity Code", Char(2)),
    mandatory("Date Created", DateTime),
    conditional("Billing Cycle", Varchar(9)),
    conditional("Tariff Bill File Reference ID", RecordId),
];

/// Table 4-3, Site Header record.
const SITE_HEADER: [Field; 18] = [
    mandatory("Record ID", RecordId),
    mandatory("Parent ID", RecordId),
    mandatory("Record Type", Char(2)),
    mandatory("Site ID", SITE_ID),
    conditional("Current Billing Period Start Date", Date),
    conditional("Current Billing Period End Date", Date),
    mandatory("Distributor ID", DISTRIBUTOR_ID),
    mandatory("Zone ID", ZONE_ID),
    mandatory("Municipality ID", Varchar(4)),
    conditional("REA Code", Char(4)),
    mandatory("Billing Cycle", Varchar(9)),
    mandatory("Usage Total", Number(14, 4)),
    mandatory("Usage UOM", Varchar(4)),
    mandatory("Charge Total", Number(11, 2)),
    optional("Additional Site Information", Varchar(50)),
    mandatory("Site Production Reason Code", Number(4, 0)),
    optional("As-at Date", DateTime),
    conditional("Parent Site ID", SITE_ID),
];

/// Table 4-4, Tariff Bill Period Header record.
const PERIOD_HEADER: [Field; 14] = [
    mandatory("Record ID", RecordId),
    mandatory("Parent ID", RecordId),
    mandatory("Record Type", Char(2)),
    mandatory("Site ID", SITE_ID),
    mandatory("Tariff Bill Period Start Date", Date),
    mandatory("Tariff Bill Period End Date", Date),
    mandatory("Cancel Indicator", Char(1)),
    conditional("Tariff Bill Period Reference ID", RecordId),
    conditional("Cancel Reason Code", Number(4, 0)),
    mandatory("Tariff Rate Code", Varchar(9)),
    mandatory("Site Status Code", Char(1)),
    mandatory("Usage Total", Number(14, 4)),
    mandatory("Usage UOM", Varchar(4)),
    mandatory("Charge Total", Number(11, 2)),
];

/// Table 4-5, Usage Determinant record.
const USAGE_DETERMINANT: [Field; 17] = [
    mandatory("Record ID", RecordId),
    mandatory("Parent ID", RecordId),
    mandatory("Record Type", Char(2)),
    mandatory("Site ID", SITE_ID),
    mandatory("Usage Period Start Date", Date),
    mandatory("Usage Period End Date", Date),
    mandatory("Cancel Indicator", Char(1)),
    mandatory("Meter Type Code", Char(1)),
    conditional("Meter Number", Varchar(20)),
    conditional("Number of Dials", Number(3, 0)),
    conditional("From Reading", Number(14, 4)),
    conditional("From Reading Code", Char(1)),
    conditional("To Reading", Number(14, 4)),
    conditional("To Reading Code", Char(1)),
    conditional("Billing Multiplier", Number(14, 9)),
    mandatory("Usage Amount", Number(13, 4)),
    mandatory("Usage UOM", Varchar(4)),
];

/// Table 4-6, Demand Determinant record.
const DEMAND_DETERMINANT: [Field; 15] = [
    mandatory("Record ID", RecordId),
    mandatory("Parent ID", RecordId),
    mandatory("Record Type", Char(2)),
    mandatory("Site ID", SITE_ID),
    mandatory("Demand Period Start Date", Date),
    mandatory("Demand Period End Date", Date),
    mandatory("Cancel Indicator", Char(1)),
    mandatory("Demand Type Code", Number(4, 0)),
    mandatory("Demand Value", Number(10, 4)),
    mandatory("Demand UOM", Varchar(4)),
    conditional("Meter Number", Varchar(20)),
    conditional("Ratchet Date Time", DateTime),
    conditional("Ratchet Period Months", Number(2, 0)),
    conditional("Power Factor", Number(7, 6)),
    conditional("Demand Contract End Date", Date),
];

/// Table 4-7, Miscellaneous Determinant record.
const MISCELLANEOUS_DETERMINANT: [Field; 10] = [
    mandatory("Record ID", RecordId),
    mandatory("Parent ID", RecordId),
    mandatory("Record Type", Char(2)),
    mandatory("Site ID", SITE_ID),
    mandatory("Miscellaneous Determinant Period Start Date", Date),
    mandatory("Miscellaneous Determinant Period End Date", Date),
    mandatory("Cancel Indicator", Char(1)),
    mandatory("Unit Quantity", Number(12, 4)),
    mandatory("Unit Quantity UOM", Varchar(7)),
    mandatory("Miscellaneous Determinant Code", Varchar(4)),
];

/// Table 4-8, Tariff Charge record.
const TARIFF_CHARGE: [Field; 19] = [
    mandatory("Record ID", RecordId),
    mandatory("Parent ID", RecordId),
    mandatory("Record Type", Char(2)),
    mandatory("Site ID", SITE_ID),
    mandatory("Charge Period Start Date", Date),
    mandatory("Charge Period End Date", Date),
    mandatory("Cancel Indicator", Char(1)),
    mandatory("Tariff Cross Reference Code", Varchar(9)),
    mandatory("Component Category Code", Number(4, 0)),
    mandatory("Component Basis Code", Char(1)),
    mandatory("Component Type Code", Varchar(4)),
    mandatory("Component Step Number", Number(3, 0)),
    mandatory("Component Billed Quantity", Number(15, 6)),
    mandatory("Component Billed Quantity UOM", Varchar(7)),
    mandatory("Time Calculation Type", Char(1)),
    mandatory("Time Factor", Number(9, 6)),
    mandatory("Component Unit Price", Number(19, 12)),
    mandatory("Charge Amount", Number(11, 2)),
    mandatory("GST Exemption Indicator", Char(1)),
];

/// Table 4-9, One-Time Charge record.
const ONE_TIME_CHARGE: [Field; 11] = [
    mandatory("Record ID", RecordId),
    mandatory("Parent ID", RecordId),
    mandatory("Record Type", Char(2)),
    mandatory("Site ID", SITE_ID),
    mandatory("Charge Date", Date),
    mandatory("Cancel Indicator", Char(1)),
    conditional("One-Time Charge Reference ID", RecordId),
    conditional("Cancel Reason Code", Number(4, 0)),
    mandatory("One-Time Charge Code", Varchar(4)),
    mandatory("Charge Amount", Number(11, 2)),
    mandatory("GST Exemption Indicator", Char(1)),
];

/// Table 4-10, File Trailer record.
const FILE_TRAILER: [Field; 5] = [
    mandatory("Record ID", RecordId),
    mandatory("Parent ID", RecordId),
    mandatory("Record Type", Char(2)),
    mandatory("File Record Count", Number(9, 0)),
    mandatory("Charge Total", Number(11, 2)),
];

/// The record types, in the order in which document 01 lists them.
pub const RECORD_TYPES: [RecordType; 9] = [
    FileHeader,
    SiteHeader,
    PeriodHeader,
    UsageDeterminant,
    DemandDeterminant,
    MiscellaneousDeterminant,
    TariffCharge,
    OneTimeCharge,
    FileTrailer,
];

/// Test 4: "which type may follow which is a fixed table". A row for each
/// type, a column for each type that may come after it.
const MAY_FOLLOW: [[bool; 9]; 9] = {
    const Y: bool = true;
    const N: bool = false;
    [
        // FH SH TH DU DD DM CH OC FT
        [N, Y, N, N, N, N, N, N, N], // after FH
        [N, N, Y, N, N, N, N, Y, N], // after SH
        [N, Y, Y, Y, Y, Y, Y, Y, Y], // after TH
        [N, Y, Y, Y, Y, Y, Y, Y, Y], // after DU
        [N, Y, Y, N, Y, Y, Y, Y, Y], // after DD
        [N, Y, Y, N, N, Y, Y, Y, Y], // after DM
        [N, Y, Y, N, N, N, Y, Y, Y], // after CH
        [N, Y, N, N, N, N, N, Y, Y], // after OC
        [N, N, N, N, N, N, N, N, N], // after FT
    ]
};

/// The Mandatory fields of each type, as bits.
const MANDATORY_FIELDS: [u32; 9] = fields_marked(Mark::Mandatory);

/// The fields of each type that must be empty, as bits.
const NULL_FIELDS: [u32; 9] = fields_marked(Mark::MandatoryNull);

/// The fields of each type that have a mark, as bits.
const fn fields_marked(mark: Mark) -> [u32; 9] {
    let mut marked = [0; 9];
    let mut place = 0;
    while place < RECORD_TYPES.len() {
        marked[place] = bits_of_marked(RECORD_TYPES[place].fields(), mark);
        place += 1;
    }
    marked
}

const fn bits_of_marked(fields: &[Field], mark: Mark) -> u32 {
    let mut bits = 0;
    let mut place = 0;
    while place < fields.len() {
        if fields[place].mark as u32 == mark as u32 {
            bits |= 1 << place;
        }
        place += 1;
    }
    bits
}

impl RecordType {
    /// The record type code of Table A5-1.
    pub const fn code(self) -> &'static str {
        match self {
            FileHeader => "FH",
            SiteHeader => "SH",
            PeriodHeader => "TH",
            UsageDeterminant => "DU",
            DemandDeterminant => "DD",
            MiscellaneousDeterminant => "DM",
            TariffCharge => "CH",
            OneTimeCharge => "OC",
            FileTrailer => "FT",
        }
    }

    /// The type that has this code.
    pub fn of_code(code: &[u8]) -> Option<Self> {
        let record_type = match code {
            b"FH" => FileHeader,
            b"SH" => SiteHeader,
            b"TH" => PeriodHeader,
            b"DU" => UsageDeterminant,
            b"DD" => DemandDeterminant,
            b"DM" => MiscellaneousDeterminant,
            b"CH" => TariffCharge,
            b"OC" => OneTimeCharge,
            b"FT" => FileTrailer,
            _ => return None,
        };
        Some(record_type)
    }

    /// "Fields, order, types and Mandatory marks are those of Tables 4-2 to
    /// 4-10."
    pub const fn fields(self) -> &'static [Field] {
        match self {
            FileHeader => &FILE_HEADER,
            SiteHeader => &SITE_HEADER,
            PeriodHeader => &PERIOD_HEADER,
            UsageDeterminant => &USAGE_DETERMINANT,
            DemandDeterminant => &DEMAND_DETERMINANT,
            MiscellaneousDeterminant => &MISCELLANEOUS_DETERMINANT,
            TariffCharge => &TARIFF_CHARGE,
            OneTimeCharge => &ONE_TIME_CHARGE,
            FileTrailer => &FILE_TRAILER,
        }
    }

    /// The Mandatory fields: a bit for each, the first field's the lowest.
    pub const fn mandatory_fields(self) -> u32 {
        MANDATORY_FIELDS[self as usize]
    }

    /// The fields that are called mandatory but must be empty, as bits.
    pub const fn null_fields(self) -> u32 {
        NULL_FIELDS[self as usize]
    }

    /// The numbers of the fields that hold amounts: those of type Number(p,s),
    /// of any width. IDs are none.
    pub fn amount_fields(self) -> impl Iterator<Item = usize> {
        let is_amount = |field: &Field| matches!(field.field_type, Number(..));
        let numbered = self.fields().iter().zip(1..);
        numbered.filter(move |(field, _)| is_amount(field)).map(|(_, number)| number)
    }

    /// The numbers of the amount fields that test 5 lets be empty.
    pub fn optional_amount_fields(self) -> impl Iterator<Item = usize> {
        self.amount_fields().filter(move |number| self.mandatory_fields() >> (number - 1) & 1 == 0)
    }

    /// Whether a record of the other type may come right after one of this.
    pub const fn may_precede(self, next: RecordType) -> bool {
        MAY_FOLLOW[self as usize][next as usize]
    }

    /// The type whose nearest preceding record is the parent: "FH (for SH,
    /// FT), SH (TH, OC) or TH (DU, DD, DM, CH)".
    pub const fn parent(self) -> Option<RecordType> {
        match self {
            FileHeader => None,
            SiteHeader | FileTrailer => Some(FileHeader),
            PeriodHeader | OneTimeCharge => Some(SiteHeader),
            UsageDeterminant | DemandDeterminant | MiscellaneousDeterminant | TariffCharge => {
                Some(PeriodHeader)
            }
        }
    }

    /// The number of the Site ID field.
    pub const fn site_field(self) -> Option<usize> {
        match self {
            FileHeader | FileTrailer => None,
            _ => Some(4),
        }
    }

    /// The numbers of the fields with a start date and its end date.
    pub const fn period_fields(self) -> Option<(usize, usize)> {
        match self {
            FileHeader | OneTimeCharge | FileTrailer => None,
            _ => Some((5, 6)),
        }
    }

    /// The number of the Cancel Indicator field.
    pub const fn cancel_indicator_field(self) -> Option<usize> {
        match self {
            FileHeader | SiteHeader | FileTrailer => None,
            OneTimeCharge => Some(6),
            _ => Some(7),
        }
    }

    /// The number of the Site Status Code field.
    pub const fn site_status_field(self) -> Option<usize> {
        match self {
            PeriodHeader => Some(11),
            _ => None,
        }
    }

    /// The number of the Meter Type Code field.
    pub const fn meter_type_field(self) -> Option<usize> {
        match self {
            UsageDeterminant => Some(8),
            _ => None,
        }
    }

    /// The number of the Demand Type Code field.
    pub const fn demand_type_field(self) -> Option<usize> {
        match self {
            DemandDeterminant => Some(8),
            _ => None,
        }
    }

    /// The number of the Reference ID field that names a record to cancel.
    pub const fn reference_field(self) -> Option<usize> {
        match self {
            PeriodHeader => Some(8),
            OneTimeCharge => Some(7),
            _ => None,
        }
    }

    /// The number of the Usage Total or Usage Amount field.
    pub const fn usage_field(self) -> Option<usize> {
        match self {
            SiteHeader | PeriodHeader => Some(12),
            UsageDeterminant => Some(16),
            _ => None,
        }
    }

    /// The number of the Usage UOM field.
    pub const fn usage_unit_field(self) -> Option<usize> {
        match self {
            SiteHeader | PeriodHeader => Some(13),
            UsageDeterminant => Some(17),
            _ => None,
        }
    }

    /// The number of the Charge Total or Charge Amount field.
    pub const fn charge_field(self) -> Option<usize> {
        match self {
            SiteHeader | PeriodHeader => Some(14),
            TariffCharge => Some(18),
            OneTimeCharge => Some(10),
            FileTrailer => Some(5),
            _ => None,
        }
    }

    /// The number of the GST Exemption Indicator field.
    pub const fn gst_exemption_field(self) -> Option<usize> {
        match self {
            TariffCharge => Some(19),
            OneTimeCharge => Some(11),
            _ => None,
        }
    }
}

/// The number of a file's lines. The last line may lack its end; a last byte
/// 10 opens no further line.
pub fn line_count(file: &[u8]) -> usize {
    let count_ends = |bytes: &[u8]| bytes.iter().map(|&byte| u8::from(byte == b'\n')).sum::<u8>();
    let ended: usize = file.chunks(255).map(|bytes| usize::from(count_ends(bytes))).sum();
    ended + usize::from(file.last().is_some_and(|&byte| byte != b'\n'))
}

/// The lines of a file without their ends: "A line ends with byte 10; a byte
/// 13 just before it belongs to the end. The last line may lack its end."
pub fn lines(file: &[u8]) -> impl Iterator<Item = &[u8]> {
    file.split_inclusive(|&byte| byte == b'\n').map(without_end)
}

fn without_end(line: &[u8]) -> &[u8] {
    match line.strip_suffix(b"\n") {
        Some(ended) => ended.strip_suffix(b"\r").unwrap_or(ended),
        None => line,
    }
}

/// A record: its type and the places of its fields, cut once.
#[derive(Clone, Copy)]
pub struct Record<'records, 'file> {
    /// The type in field 3.
    pub record_type: RecordType,
    file: &'file [u8],
    start: usize,
    ends: &'records [u32],
}

impl<'file> Record<'_, 'file> {
    /// The field of this number, counted from 1 as in Tables 4-2 to 4-10.
    pub fn field(&self, number: usize) -> &'file [u8] {
        let start = if number == 1 { self.start } else { self.ends[number - 2] as usize + 1 };
        &self.file[start..self.ends[number - 1] as usize]
    }

    /// The fields with their rows of the type's table.
    pub fn described_fields(&self) -> impl Iterator<Item = (&'static Field, &'file [u8])> + '_ {
        let mut start = self.start;
        self.record_type.fields().iter().zip(self.ends).map(move |(description, &end)| {
            let field = &self.file[start..end as usize];
            start = end as usize + 1;
            (description, field)
        })
    }
}

/// Why a file has no records.
#[derive(Clone, Copy, Debug, PartialEq, Eq)]
pub enum Unreadable {
    /// "103 if the file exceeds its bytes or its lines".
    TooLong,
    /// The first line that fails test 2, counted from 1.
    Line(usize),
}

/// The records of a file that passes test 2.
pub struct Records<'file> {
    file: &'file [u8],
    heads: Vec<Head>,
    /// Where in the file the fields end, record after record.
    ends: Vec<u32>,
}

/// A record's type, where its line begins, and where the ends of its fields
/// begin.
struct Head {
    record_type: RecordType,
    start: u32,
    first_end: u32,
}

/// No record has more fields.
pub const MOST_FIELDS: usize = TARIFF_CHARGE.len();

impl<'file> Records<'file> {
    /// The records of a file within its limits that passes test 2: "every byte
    /// within a line is 32 to 126; field 3 is a known type; the field count is
    /// its table's. An empty line fails. A file of no bytes fails at line 1."
    pub fn of(file: &'file [u8]) -> Result<Self, Unreadable> {
        let line_count = line_count(file);
        if file.len() > MOST_BYTES || line_count > MOST_LINES {
            return Err(Unreadable::TooLong);
        }
        let mut records = Records {
            file,
            heads: Vec::with_capacity(line_count),
            ends: Vec::with_capacity(line_count * MOST_FIELDS),
        };
        records.cut().ok_or(Unreadable::Line(records.heads.len() + 1))?;
        Ok(records)
    }

    /// Cuts the file into records, as far as its lines are records.
    fn cut(&mut self) -> Option<()> {
        let file = self.file;
        let mut start = 0;
        let mut first_end = 0;
        for (place, &byte) in file.iter().enumerate() {
            match byte {
                b'-'..=b'~' => {}
                b',' => self.ends.push(place as u32),
                b'\n' => {
                    let line = without_end(&file[start..=place]);
                    self.ends.push((start + line.len()) as u32);
                    self.push(start, first_end)?;
                    (start, first_end) = (place + 1, self.ends.len());
                }
                b' '..=b'+' => {}
                b'\r' if file.get(place + 1) == Some(&b'\n') => {}
                _ => return None,
            }
        }
        if start < file.len() || file.is_empty() {
            self.ends.push(file.len() as u32);
            self.push(start, first_end)?;
        }
        Some(())
    }

    /// Adds the record of a line whose fields are cut, if the line is one.
    fn push(&mut self, start: usize, first_end: usize) -> Option<()> {
        let ends = &self.ends[first_end..];
        let &[_, second, third, ..] = ends else { return None };
        let record_type = RecordType::of_code(&self.file[second as usize + 1..third as usize])?;
        if ends.len() != record_type.fields().len() {
            return None;
        }
        self.heads.push(Head { record_type, start: start as u32, first_end: first_end as u32 });
        Some(())
    }

    /// The number of records, which is the number of lines.
    pub fn len(&self) -> usize {
        self.heads.len()
    }

    /// Whether there are no records.
    pub fn is_empty(&self) -> bool {
        self.heads.is_empty()
    }

    /// The record of a place, from 0.
    pub fn at(&self, place: usize) -> Record<'_, 'file> {
        self.record(&self.heads[place])
    }

    /// The records in file order.
    pub fn iter(&self) -> impl Iterator<Item = Record<'_, 'file>> {
        self.heads.iter().map(|head| self.record(head))
    }

    /// The first record.
    pub fn first(&self) -> Option<Record<'_, 'file>> {
        self.heads.first().map(|head| self.record(head))
    }

    /// The last record.
    pub fn last(&self) -> Option<Record<'_, 'file>> {
        self.heads.last().map(|head| self.record(head))
    }

    fn record(&self, &Head { record_type, start, first_end }: &Head) -> Record<'_, 'file> {
        let ends = &self.ends[first_end as usize..];
        let ends = &ends[..record_type.fields().len()];
        Record { record_type, file: self.file, start: start as usize, ends }
    }
}

#[cfg(test)]
mod tests {
    use super::*;

    #[test]
    fn field_counts_of_2007() {
        let counts = RECORD_TYPES.map(|record_type| record_type.fields().len());
        assert_eq!(counts, [9, 18, 14, 17, 15, 10, 19, 11, 5]);
    }

    #[test]
    fn codes_name_their_types() {
        for record_type in RECORD_TYPES {
            assert_eq!(RecordType::of_code(record_type.code().as_bytes()), Some(record_type));
        }
        assert_eq!(RecordType::of_code(b"fh"), None);
        assert_eq!(RecordType::of_code(b""), None);
    }

    /// Of the amounts that are added or compared, none may be empty.
    #[test]
    fn amounts_that_may_be_empty() {
        let optional = RECORD_TYPES.map(|record_type| {
            let numbers = record_type.optional_amount_fields();
            (record_type.code(), numbers.collect::<Vec<usize>>())
        });
        let expected = [
            ("FH", vec![]),
            ("SH", vec![]),
            ("TH", vec![9]),
            ("DU", vec![10, 11, 13, 15]),
            ("DD", vec![13, 14]),
            ("DM", vec![]),
            ("CH", vec![]),
            ("OC", vec![8]),
            ("FT", vec![]),
        ];
        assert_eq!(optional, expected);
        for record_type in RECORD_TYPES {
            let is_summed = |number: &usize| {
                [record_type.usage_field(), record_type.charge_field()].contains(&Some(*number))
            };
            assert!(!record_type.optional_amount_fields().any(|number| is_summed(&number)));
        }
    }

    #[test]
    fn field_numbers_agree_with_the_tables() {
        let named = |record_type: RecordType, number: Option<usize>, names: &[&str]| {
            let fields = record_type.fields();
            match number {
                Some(number) => assert!(names.contains(&fields[number - 1].name)),
                None => assert!(fields.iter().all(|field| !names.contains(&field.name))),
            }
        };
        for record_type in RECORD_TYPES {
            named(record_type, record_type.site_field(), &["Site ID"]);
            named(record_type, record_type.cancel_indicator_field(), &["Cancel Indicator"]);
            named(record_type, record_type.site_status_field(), &["Site Status Code"]);
            named(record_type, record_type.meter_type_field(), &["Meter Type Code"]);
            named(record_type, record_type.demand_type_field(), &["Demand Type Code"]);
            named(record_type, record_type.usage_field(), &["Usage Total", "Usage Amount"]);
            named(record_type, record_type.usage_unit_field(), &["Usage UOM"]);
            named(record_type, record_type.charge_field(), &["Charge Total", "Charge Amount"]);
            named(record_type, record_type.gst_exemption_field(), &["GST Exemption Indicator"]);
            named(
                record_type,
                record_type.reference_field(),
                &["Tariff Bill Period Reference ID", "One-Time Charge Reference ID"],
            );
            let ends_with =
                |number: usize, end: &str| record_type.fields()[number - 1].name.ends_with(end);
            match record_type.period_fields() {
                Some((start, end)) => {
                    assert!(ends_with(start, "Start Date") && ends_with(end, "End Date"))
                }
                None => {
                    assert!((1..=record_type.fields().len())
                        .all(|number| !ends_with(number, "Start Date")))
                }
            }
        }
    }

    #[test]
    fn line_ends() {
        let cut = |file: &'static str| lines(file.as_bytes()).collect::<Vec<_>>();
        assert_eq!(cut("a\nb"), [b"a", b"b"]);
        assert_eq!(cut("a\r\nb\n"), [b"a", b"b"]);
        assert_eq!(cut("a\r\r\nb\r"), [&b"a\r"[..], b"b\r"]);
        assert_eq!(cut("\n"), [b""]);
        assert_eq!(cut("a\n\n"), [&b"a"[..], b""]);
        assert!(cut("").is_empty());
        for (file, count) in [("", 0), ("\n", 1), ("a", 1), ("a\n", 1), ("a\nb", 2), ("a\n\n", 2)] {
            assert_eq!(line_count(file.as_bytes()), count);
            assert_eq!(lines(file.as_bytes()).count(), count);
        }
    }
}
