//! Files that fail: damaged so that one test is the first to fail, edited at
//! random, made of random bytes, or at and past the limits.

use crate::calendar::{date_of, day_of};
use crate::check::check;
use crate::conditions::CONDITIONAL_FIELDS;
use crate::fields::FieldType;
use crate::file::{Mark, RecordType, MOST_BYTES, MOST_LINES};
use crate::generate::draft::{Draft, DraftRecord};
use crate::generate::random::Random;
use crate::generate::{Generator, Request, MOST_TRIES, RETAILER};

/// The tests of Check, in their order.
pub const CHECK_TESTS: [u32; 20] =
    [2, 3, 4, 5, 6, 7, 9, 10, 11, 12, 14, 17, 18, 29, 30, 31, 32, 33, 34, 38];

impl Generator {
    /// A file whose first failure is this test of Check.
    pub fn damaged(&mut self, test: u32) -> Vec<u8> {
        assert!(CHECK_TESTS.contains(&test), "{test} is no test of Check");
        let distributors = self.distributors();
        for _ in 0..MOST_TRIES {
            let request = self.full_request();
            let file = self.damaged_once(&request, test);
            if check(RETAILER, &distributors, &file).0 == test {
                return file;
            }
        }
        panic!("no damage makes test {test} the first failure");
    }

    /// A valid file, damaged for a test of Check. The damage may miss.
    pub fn damaged_once(&mut self, request: &Request, test: u32) -> Vec<u8> {
        let distributors = self.distributors();
        let mut draft = self.valid(request);
        if test == 2 {
            let file = self.write(&draft);
            return break_format(&mut self.random, file);
        }
        damage(&mut self.random, &mut draft, test, &distributors);
        self.write(&draft)
    }

    /// A file with one to four edits at random places.
    pub fn edited(&mut self, file: &[u8]) -> Vec<u8> {
        let mut edited = file.to_vec();
        for _ in 0..self.random.between(1, 4) {
            edit(&mut self.random, &mut edited);
        }
        edited
    }

    /// So many random bytes, in half the cases of those that files are made
    /// of.
    pub fn noise(&mut self, length: usize) -> Vec<u8> {
        let random = &mut self.random;
        match random.percent(50) {
            true => (0..length).map(|_| random.number() as u8).collect(),
            false => (0..length).map(|_| likely_byte(random)).collect(),
        }
    }

    /// Files at the limits of bytes and lines and right past them, each with a
    /// name.
    pub fn limits(&mut self) -> Vec<(&'static str, Vec<u8>)> {
        let request = self.full_request();
        let full = self.valid_of_lines(&request, MOST_LINES);
        let longer = self.valid_of_lines(&request, MOST_LINES + 1);
        let mut without_end = full.plain_bytes();
        without_end.pop();
        let mut one_more = full.plain_bytes();
        one_more.push(b'\n');
        let padded = |length: usize| {
            let mut draft = full.clone();
            let missing = length - draft.plain_bytes().len();
            draft.records[1].fields[14].push_str(&"A".repeat(missing));
            draft.plain_bytes()
        };
        vec![
            ("4096 lines", full.plain_bytes()),
            ("4096 lines, the last without its end", without_end),
            ("4096 lines and an empty one", one_more),
            ("4097 lines", longer.plain_bytes()),
            ("4096 empty lines", vec![b'\n'; MOST_LINES]),
            ("4097 empty lines", vec![b'\n'; MOST_LINES + 1]),
            ("1048576 bytes", padded(MOST_BYTES)),
            ("1048577 bytes", padded(MOST_BYTES + 1)),
            ("1048576 bytes in a line", vec![b'A'; MOST_BYTES]),
            ("1048577 bytes in a line", vec![b'A'; MOST_BYTES + 1]),
            ("1048576 commas", vec![b','; MOST_BYTES]),
        ]
    }
}

/// Damages a file's bytes for test 2.
fn break_format(random: &mut Random, mut file: Vec<u8>) -> Vec<u8> {
    let place = random.place(file.len());
    match random.below(7) {
        0 => file[place] = random.pick(&[0, 9, 13, 31, 127, 128, 255]),
        1 => file.insert(place, b','),
        2 => file.push(b'\n'),
        3 => file.clear(),
        4 => replace_a_comma(random, &mut file),
        5 => file.push(b'\r'),
        _ => replace_a_type(random, &mut file),
    }
    file
}

fn replace_a_comma(random: &mut Random, file: &mut [u8]) {
    let commas: Vec<usize> = (0..file.len()).filter(|&place| file[place] == b',').collect();
    file[commas[random.place(commas.len())]] = b' ';
}

/// Makes one of the capital letters small, most likely one of a type or code.
fn replace_a_type(random: &mut Random, file: &mut [u8]) {
    let letters: Vec<usize> =
        (0..file.len()).filter(|&place| file[place].is_ascii_uppercase()).collect();
    let place = letters[random.place(letters.len())];
    file[place] = file[place].to_ascii_lowercase();
}

/// Damages a draft for a test from 3 on. The damage may miss; the caller
/// checks.
fn damage(random: &mut Random, draft: &mut Draft, test: u32, listed: &[u8]) {
    match test {
        3 => break_a_type(random, draft),
        4 => break_the_sequence(random, draft),
        5 => clear_a_mandatory_field(random, draft),
        6 => clear_a_conditional_field(random, draft),
        7 => break_a_code(random, draft),
        9 => repeat_a_record_id(random, draft),
        10 => break_a_parent_id(random, draft),
        11 => draft.records[0].set(4, format!("{:09}", random.below(RETAILER))),
        12 => draft.records[0].set(5, unlisted_distributor(random, listed)),
        14 => reverse_a_period(random, draft),
        17 => flip_a_cancel_indicator(random, draft),
        18 => overlap_two_periods(random, draft),
        29 => shift_a_total(random, draft, RecordType::SiteHeader, 12),
        30 => shift_a_total(random, draft, RecordType::SiteHeader, 14),
        31 => shift_a_total(random, draft, RecordType::PeriodHeader, 12),
        32 => shift_a_total(random, draft, RecordType::PeriodHeader, 14),
        33 => shift_a_total(random, draft, RecordType::FileTrailer, 4),
        34 => shift_a_total(random, draft, RecordType::FileTrailer, 5),
        _ => change_a_site(random, draft),
    }
}

fn any_record<'a>(random: &mut Random, draft: &'a mut Draft) -> &'a mut DraftRecord {
    let place = random.place(draft.records.len());
    &mut draft.records[place]
}

/// A random record of those that meet a condition.
fn any_meeting<'a>(
    random: &mut Random,
    draft: &'a mut Draft,
    meets: impl Fn(&DraftRecord) -> bool,
) -> Option<&'a mut DraftRecord> {
    let places = draft.places(meets);
    let place = *places.get(random.place(places.len().max(1)))?;
    Some(&mut draft.records[place])
}

fn break_a_type(random: &mut Random, draft: &mut Draft) {
    let record = any_record(random, draft);
    let number = random.between(1, record.fields.len() as u64) as usize;
    if number == 3 {
        return;
    }
    let text = misfit(random, record.record_type.fields()[number - 1].field_type);
    record.set(number, text);
}

/// Text that misses a type.
fn misfit(random: &mut Random, field_type: FieldType) -> String {
    match field_type {
        FieldType::RecordId => random.pick(&["-1", "1A", "1234567890123456", " 1", "1.0"]).into(),
        FieldType::Digits(count) => match random.below(3) {
            0 => "1".repeat(count - 1),
            1 => "1".repeat(count + 1),
            _ => format!("{}X", "1".repeat(count - 1)),
        },
        FieldType::Number(precision, places) => match random.below(4) {
            0 => "1".repeat((precision - places) as usize + 1),
            1 => format!("0.{}", "1".repeat(places as usize + 1)),
            _ => random.pick(&["-", "1.", ".5", "1.2.3", "--1", "+1", "1-", " 1", "1e2"]).into(),
        },
        FieldType::Date => random
            .pick(&[
                "20230229", "20240001", "20241301", "19991231", "21000101", "2024011", "20240431",
            ])
            .into(),
        FieldType::DateTime => random
            .pick(&[
                "20240101240000",
                "20240101006000",
                "20240101000060",
                "20240101",
                "20230229000000",
            ])
            .into(),
        FieldType::Char(length) => {
            "X".repeat(if length > 1 && random.percent(50) { length - 1 } else { length + 1 })
        }
        FieldType::Varchar(length) => "X".repeat(length + 1),
    }
}

fn break_the_sequence(random: &mut Random, draft: &mut Draft) {
    let place = random.place(draft.records.len());
    match random.below(4) {
        0 => drop(draft.records.remove(place)),
        1 => draft.records.insert(place, draft.records[place].clone()),
        2 => draft.records.swap(place, place.saturating_sub(1)),
        _ => drop(draft.records.pop()),
    }
}

fn clear_a_mandatory_field(random: &mut Random, draft: &mut Draft) {
    if random.percent(10) {
        draft.records[0].set(2, random.pick(&["0", "1", "77"]));
        return;
    }
    let record = any_record(random, draft);
    let number = random.between(1, record.fields.len() as u64) as usize;
    if number != 3 && record.record_type.fields()[number - 1].mark == Mark::Mandatory {
        record.set(number, "");
    }
}

/// Clears a field that test 6 asks for. Of the fields that it asks for in some
/// record each is as likely as the others.
fn clear_a_conditional_field(random: &mut Random, draft: &mut Draft) {
    let asked: Vec<(usize, Vec<usize>)> = CONDITIONAL_FIELDS
        .iter()
        .map(|field| (field.number, draft.places_that_ask(field)))
        .filter(|(_, places)| !places.is_empty())
        .collect();
    if !asked.is_empty() {
        let (number, places) = &asked[random.place(asked.len())];
        draft.records[random.pick(places)].set(*number, "");
    }
}

fn break_a_code(random: &mut Random, draft: &mut Draft) {
    if random.percent(10) {
        draft.records[0].set(6, random.pick(&["XX", "el", "GE", "  "]));
        return;
    }
    let record = any_record(random, draft);
    let record_type = record.record_type;
    let (number, codes) = match random.below(3) {
        0 => (record_type.usage_unit_field(), &["KWH", "GJ", "kwh", "MWH", "CALC"][..]),
        1 => (record_type.cancel_indicator_field(), &["y", "n", "X", " ", "1"][..]),
        _ => (record_type.gst_exemption_field(), &["y", "n", "X", " ", "0"][..]),
    };
    if let Some(number) = number {
        record.set(number, random.pick(codes));
    }
}

fn repeat_a_record_id(random: &mut Random, draft: &mut Draft) {
    let earlier = random.place(draft.records.len());
    let later = random.place(draft.records.len());
    let repeated = draft.records[earlier].field(1).to_owned();
    let text = if random.percent(30) { format!("{repeated:0>15}") } else { repeated };
    draft.records[later].set(1, text);
}

fn break_a_parent_id(random: &mut Random, draft: &mut Draft) {
    let other = random.place(draft.records.len());
    let text = match random.percent(50) {
        true => draft.records[other].field(1).to_owned(),
        false => random.below(1_000_000).to_string(),
    };
    let is_child = |record: &DraftRecord| record.record_type != RecordType::FileHeader;
    if let Some(record) = any_meeting(random, draft, is_child) {
        record.set(2, text);
    }
}

fn unlisted_distributor(random: &mut Random, listed: &[u8]) -> String {
    loop {
        let distributor = format!("{:04}", random.below(10_000));
        if listed.chunks(4).all(|other| other != distributor.as_bytes()) {
            return distributor;
        }
    }
}

fn reverse_a_period(random: &mut Random, draft: &mut Draft) {
    let has_period = |record: &DraftRecord| {
        record.record_type.period_fields().is_some() && !record.field(5).is_empty()
    };
    let Some(record) = any_meeting(random, draft, has_period) else { return };
    let end = day_of(record.field(6).as_bytes());
    if let Some(after) = end.and_then(|end| date_of(end + random.between(1, 3) as u32)) {
        record.set(5, after);
    }
}

fn flip_a_cancel_indicator(random: &mut Random, draft: &mut Draft) {
    let Some(record) = any_meeting(random, draft, DraftRecord::is_period_child) else { return };
    let flipped = if record.is_cancel() { "N" } else { "Y" };
    record.set(7, flipped);
}

/// Lets a period of a site begin on or before the end of another.
fn overlap_two_periods(random: &mut Random, draft: &mut Draft) {
    let is_original = |record: &DraftRecord| {
        record.record_type == RecordType::PeriodHeader && !record.is_cancel()
    };
    let originals = draft.places(is_original);
    let Some(pairs) = originals.len().checked_sub(1).filter(|&pairs| pairs > 0) else { return };
    let pair = random.place(pairs);
    let (first, second) = (originals[pair], originals[pair + 1]);
    let number = if random.percent(50) { 5 } else { 6 };
    let day = draft.records[first].field(number).to_owned();
    draft.records[second].set(5, day);
}

fn shift_a_total(random: &mut Random, draft: &mut Draft, record_type: RecordType, number: usize) {
    let units = random.pick(&[1, -1, 100, -100_000]);
    let is_of_type = |record: &DraftRecord| record.record_type == record_type;
    if let Some(record) = any_meeting(random, draft, is_of_type) {
        record.shift(number, units);
    }
}

fn change_a_site(random: &mut Random, draft: &mut Draft) {
    let has_no_amount = |record: &DraftRecord| {
        matches!(
            record.record_type,
            RecordType::PeriodHeader
                | RecordType::DemandDeterminant
                | RecordType::MiscellaneousDeterminant
        )
    };
    let site = format!("{:013}", random.below(10_000_000_000_000));
    if let Some(record) = any_meeting(random, draft, has_no_amount) {
        record.set(4, site);
    }
}

/// A byte that files are made of, or one near them.
fn likely_byte(random: &mut Random) -> u8 {
    random.pick(b",,,,000123456789-.\n\rNYEFHSTDUMCOKWGJL \x1f\x7f")
}

/// One edit at a random place.
fn edit(random: &mut Random, file: &mut Vec<u8>) {
    if file.is_empty() {
        file.push(likely_byte(random));
        return;
    }
    let place = random.place(file.len());
    match random.below(8) {
        0 => file[place] = likely_byte(random),
        1 => file.insert(place, likely_byte(random)),
        2 => drop(file.remove(place)),
        3 => file[place] = random.number() as u8,
        4 => change_a_digit(random, file, place),
        5 => repeat_a_line(file, place),
        6 => remove_a_line(file, place),
        _ => swap_bytes(random, file, place),
    }
}

/// Changes the next digit at or after a place.
fn change_a_digit(random: &mut Random, file: &mut [u8], place: usize) {
    if let Some(digit) = file[place..].iter_mut().find(|byte| byte.is_ascii_digit()) {
        *digit = b'0' + random.below(10) as u8;
    }
}

/// Where the line of a place starts and where the next one does.
fn line_around(file: &[u8], place: usize) -> (usize, usize) {
    let start = file[..place].iter().rposition(|&byte| byte == b'\n').map_or(0, |at| at + 1);
    let end = file[place..].iter().position(|&byte| byte == b'\n');
    (start, end.map_or(file.len(), |offset| place + offset + 1))
}

fn repeat_a_line(file: &mut Vec<u8>, place: usize) {
    let (start, end) = line_around(file, place);
    let line = file[start..end].to_vec();
    file.splice(end..end, line);
}

fn remove_a_line(file: &mut Vec<u8>, place: usize) {
    let (start, end) = line_around(file, place);
    file.drain(start..end);
}

fn swap_bytes(random: &mut Random, file: &mut [u8], place: usize) {
    let other = random.place(file.len());
    file.swap(place, other);
}
