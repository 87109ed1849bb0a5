//! Disputes: one TBD transaction (Table 4-14) written of a held entry, and one
//! read. Document 02, 4.

use std::io::Write;

use crate::calendar::moment_of;
use crate::check::{Refusal, Settings};
use crate::fields::{amount_of, fits, identifier_of, Amount, FieldType};
use crate::file::lines;
use crate::ledger::{kind, sound, state, Entry};

/// The A5.25 code for overlap: "7004", "Tariff bill period overlap (with
/// previous tariff bill files)".
pub const OVERLAP_CODE: u64 = 7_004;

/// The longest line: three IDs of 15 digits, and 58 bytes that every line has.
pub const MOST_BYTES: usize = 3 * 15 + 58;

/// What "The caller supplies" besides settings: "Transaction ID, Date Created
/// and the Tariff Bill File Record ID".
#[derive(Clone, Copy, Debug)]
pub struct Supplied<'a> {
    /// The Transaction ID.
    pub transaction: &'a [u8],
    /// The Date Created, a date time.
    pub created: &'a [u8],
    /// The Tariff Bill File Record ID.
    pub file: &'a [u8],
}

/// A dispute in numbers; the Date Created as it was supplied.
#[derive(Clone, Copy, Debug)]
pub struct Dispute<'a> {
    /// The Transaction ID.
    pub transaction: u64,
    /// The retailer, who sends it.
    pub retailer: u64,
    /// The distributor.
    pub distributor: u64,
    /// The Date Created.
    pub created: &'a [u8],
    /// The Tariff Bill File Record ID.
    pub file: u64,
    /// The site.
    pub site: u64,
    /// Whether it is of a one-time charge.
    pub once: bool,
    /// The Record ID of the period or of the one-time charge.
    pub id: u64,
}

impl Dispute<'_> {
    /// Writes the line at the start of some bytes that have room for it, and
    /// answers its length: "Transaction and Record IDs are .. written without
    /// leading zeros, site, distributor and retailer IDs with all their digits."
    /// "The line ends with byte 10".
    pub fn write(&self, out: &mut [u8]) -> usize {
        let room = out.len();
        let mut rest = out;
        let head =
            write!(rest, "TBD,{},{:09},{:04},", self.transaction, self.retailer, self.distributor);
        let created = rest.write_all(self.created);
        let subject = write!(rest, ",{},{:013},", self.file, self.site);
        let ids = match self.once {
            false => write!(rest, "{},,,", self.id),
            true => write!(rest, ",,{},", self.id),
        };
        let code = writeln!(rest, "{OVERLAP_CODE:04}");
        head.and(created).and(subject).and(ids).and(code).expect("there is room for the line");
        room - rest.len()
    }
}

/// Writes one TBD from a held entry's place, and answers its length. "Checks:
/// 104, 105, 3 if a supplied field is empty or misses its type, 108 if the
/// place is no held entry, 109 if the output is shorter than the line, in this
/// order." "Output beyond the line stays untouched, and all of it on a
/// refusal."
pub fn dispute(
    settings: Settings,
    run: &[Entry],
    used: usize,
    place: usize,
    supplied: Supplied,
    out: &mut [u8],
) -> Result<usize, u32> {
    settings.validate().map_err(|refusal: Refusal| refusal.number)?;
    if !sound(run, used) {
        return Err(105);
    }
    let transaction = identifier_of(supplied.transaction).ok_or(3_u32)?;
    let file = identifier_of(supplied.file).ok_or(3_u32)?;
    moment_of(supplied.created).ok_or(3_u32)?;
    let entry = run[..used].get(place).filter(|entry| entry.state == state::HELD).ok_or(108_u32)?;
    let dispute = Dispute {
        transaction,
        retailer: settings.retailer,
        distributor: entry.sender,
        created: supplied.created,
        file,
        site: entry.site,
        once: entry.kind == kind::ONE_TIME_CHARGE,
        id: entry.record_id,
    };
    let mut line = [0; MOST_BYTES];
    let length = dispute.write(&mut line);
    let room = out.get_mut(..length).ok_or(109_u32)?;
    room.copy_from_slice(&line[..length]);
    Ok(length)
}

/// The types of Table 4-14's fields. "Transaction and Record IDs are unsigned
/// (a minus misses the type)".
pub const FIELDS: [FieldType; 11] = [
    FieldType::Char(3),
    FieldType::RecordId,
    FieldType::Digits(9),
    FieldType::Digits(4),
    FieldType::DateTime,
    FieldType::RecordId,
    FieldType::Digits(13),
    FieldType::RecordId,
    FieldType::RecordId,
    FieldType::RecordId,
    FieldType::Number(4, 0),
];

/// What is read of a dispute: of fields 2 to 10 the number, of field 11 the
/// code; none of an empty field.
#[derive(Clone, Copy, Debug, Default, PartialEq, Eq)]
pub struct Fields {
    /// Fields 2 to 10 of Table 4-14.
    pub numbers: [Option<u64>; 9],
    /// The Dispute Code.
    pub code: Option<i64>,
}

/// Reads one TBD line: "its end as a bill file's, .. 2 as that test does for
/// bytes and field count, or if field 1 isn't TBD or bytes follow the line's
/// end, then 3 as that test does."
pub fn read(bytes: &[u8]) -> Result<Fields, u32> {
    let fields = fields_of(bytes).ok_or(2_u32)?;
    if !FIELDS.iter().zip(fields).all(|(&field_type, field)| fits(field_type, field)) {
        return Err(3);
    }
    let mut read = Fields::default();
    for (number, field) in read.numbers.iter_mut().zip(&fields[1..10]) {
        *number = identifier_of(field);
    }
    if let Amount::Value(code) = amount_of(fields[10], 4, 0) {
        read.code = Some(code);
    }
    Ok(read)
}

/// The eleven fields of a single line of printable bytes whose first is TBD.
pub fn fields_of(bytes: &[u8]) -> Option<[&[u8]; 11]> {
    let mut lines = lines(bytes);
    let line = lines.next()?;
    if lines.next().is_some() || !line.iter().all(|byte| (32..=126).contains(byte)) {
        return None;
    }
    let mut fields = [&line[..0]; 11];
    let mut count = 0;
    for field in line.split(|&byte| byte == b',') {
        *fields.get_mut(count)? = field;
        count += 1;
    }
    (count == 11 && fields[0] == b"TBD").then_some(fields)
}
