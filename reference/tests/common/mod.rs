//! Small files written by hand.

#![allow(dead_code)]

use reference::booking::{book, Answer};
use reference::check::{check, Refusal};
use reference::ledger::Entry;
use reference::plain;

pub const RETAILER: u64 = 999_999_999;
pub const DISTRIBUTORS: &[u8] = b"0040";
pub const SITE: &str = "0020000000001";

/// The lines of a file with one site; Parent IDs are set on the way.
pub struct FileText {
    pub lines: Vec<String>,
}

/// A file header with this Record ID.
pub fn file_header(id: u64) -> String {
    format!("{id},,FH,999999999,0040,EL,20240301120000,CYCLE01,")
}

/// A site header: Record ID, Parent ID, billing period, usage and charge.
pub fn site_header(id: u64, parent: u64, billing: &str, usage: &str, charge: &str) -> String {
    format!(
        "{id},{parent},SH,{SITE},{billing},0040,0001,0098,,CYCLE01,{usage},KWH,{charge},,2020,,"
    )
}

/// A tariff bill period: "days" is start and end, "reference" is Reference ID
/// and Cancel Reason Code.
pub fn period(
    id: u64,
    parent: u64,
    days: &str,
    indicator: &str,
    reference: &str,
    usage: &str,
    charge: &str,
) -> String {
    format!("{id},{parent},TH,{SITE},{days},{indicator},{reference},RATE1,E,{usage},KWH,{charge}")
}

pub fn usage(id: u64, parent: u64, days: &str, indicator: &str, amount: &str) -> String {
    format!("{id},{parent},DU,{SITE},{days},{indicator},I,,,,,,,,{amount},KWH")
}

pub fn demand(id: u64, parent: u64, days: &str, indicator: &str) -> String {
    format!("{id},{parent},DD,{SITE},{days},{indicator},4000,12.5,KW,,,,,")
}

pub fn miscellaneous(id: u64, parent: u64, days: &str, indicator: &str) -> String {
    format!("{id},{parent},DM,{SITE},{days},{indicator},31,CDAY,DAYS")
}

pub fn charge(id: u64, parent: u64, days: &str, indicator: &str, amount: &str) -> String {
    format!(
        "{id},{parent},CH,{SITE},{days},{indicator},XREF1,5001,E,ENGY,1,10,KWH,P,1,10.000000000001,{amount},N"
    )
}

pub fn one_time(id: u64, parent: u64, indicator: &str, reference: &str, amount: &str) -> String {
    format!("{id},{parent},OC,{SITE},20240115,{indicator},{reference},CONN,{amount},N")
}

pub fn file_trailer(id: u64, parent: u64, count: usize, charge: &str) -> String {
    format!("{id},{parent},FT,{count},{charge}")
}

pub fn text(lines: &[String]) -> Vec<u8> {
    let mut file = lines.join("\n").into_bytes();
    file.push(b'\n');
    file
}

pub const JANUARY: &str = "20240101,20240131";
pub const FEBRUARY: &str = "20240131,20240227";

/// A: January, 100.00 and 50 kWh, IDs from 1.
pub fn january() -> Vec<String> {
    vec![
        file_header(1),
        site_header(2, 1, JANUARY, "50", "100"),
        period(3, 2, JANUARY, "N", ",", "50", "100.00"),
        usage(4, 3, JANUARY, "N", "50"),
        charge(5, 3, JANUARY, "N", "100"),
        file_trailer(6, 1, 6, "100"),
    ]
}

/// B: cancels A's January by an amount and rebills 90.00, IDs from a number.
pub fn rebill(from: u64, cancelled: &str, total: &str) -> Vec<String> {
    vec![
        file_header(from),
        site_header(from + 1, from, ",", "0", total),
        period(from + 2, from + 1, JANUARY, "Y", "3,3030", "-50", cancelled),
        usage(from + 3, from + 2, JANUARY, "Y", "-50"),
        charge(from + 4, from + 2, JANUARY, "Y", cancelled),
        period(from + 5, from + 1, JANUARY, "N", ",", "50", "90"),
        usage(from + 6, from + 5, JANUARY, "N", "50"),
        charge(from + 7, from + 5, JANUARY, "N", "90"),
        file_trailer(from + 8, from, 9, total),
    ]
}

/// C: 31 January to 27 February, 50.00.
pub fn february() -> Vec<String> {
    vec![
        file_header(30),
        site_header(31, 30, FEBRUARY, "20", "50"),
        period(32, 31, FEBRUARY, "N", ",", "20", "50"),
        usage(33, 32, FEBRUARY, "N", "20"),
        charge(34, 32, FEBRUARY, "N", "50"),
        file_trailer(35, 30, 6, "50"),
    ]
}

/// A file of FH and one OC.
pub fn one_time_charge() -> Vec<String> {
    vec![
        file_header(60),
        site_header(61, 60, ",", "0", "25"),
        one_time(62, 61, "N", ",", "25"),
        file_trailer(63, 60, 4, "25"),
    ]
}

/// A file with a record of every type.
pub fn every_type() -> Vec<String> {
    vec![
        file_header(1),
        site_header(2, 1, "20240101,20240229", "50.5", "120"),
        period(3, 2, JANUARY, "N", ",", "50", "100.00"),
        usage(4, 3, JANUARY, "N", "50"),
        demand(5, 3, JANUARY, "N"),
        miscellaneous(6, 3, JANUARY, "N"),
        charge(7, 3, JANUARY, "N", "100"),
        period(8, 2, "20240201,20240229", "N", ",", "0.5", "-5"),
        usage(9, 8, "20240201,20240229", "N", "0.5"),
        charge(10, 8, "20240201,20240229", "N", "-5"),
        one_time(11, 2, "N", ",", "25"),
        file_trailer(12, 1, 12, "120.00"),
    ]
}

/// What both forms of Check answer.
pub fn checked(lines: &[String]) -> (u32, u32) {
    let answer = check(RETAILER, DISTRIBUTORS, &text(lines));
    assert_eq!(plain::check(RETAILER, DISTRIBUTORS, &text(lines)), answer);
    answer
}

/// Replaces a field of a line, both counted from 1.
pub fn with_field(mut lines: Vec<String>, line: usize, number: usize, field: &str) -> Vec<String> {
    let mut fields: Vec<&str> = lines[line - 1].split(',').collect();
    fields[number - 1] = field;
    lines[line - 1] = fields.join(",");
    lines
}

/// A ledger that files are booked into.
pub struct Desk {
    pub run: Vec<Entry>,
    pub used: usize,
}

impl Desk {
    pub fn new(length: usize) -> Self {
        Desk { run: vec![Entry::default(); length], used: 0 }
    }

    pub fn book(&mut self, lines: &[String]) -> Answer {
        let answer = book(RETAILER, DISTRIBUTORS, &text(lines), &mut self.run, self.used);
        if let Answer::Booked { added, .. } = answer {
            self.used += added;
        }
        answer
    }
}

pub fn booked(added: usize, held: usize) -> Answer {
    Answer::Booked { added, held }
}

pub fn refused(number: u32, line: u32) -> Answer {
    Answer::Refused(Refusal { number, line })
}
