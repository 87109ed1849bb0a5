//! Files of as many records under one header as a file can have, whose amounts are as large as they may be: the sums run to their ends and
//! back. Each total that is a unit off, and each usage total in place of a charge total, is found.

use crate::files::Comparison;
use reference::fields::FieldType;
use reference::file::{RecordType, MOST_LINES};
use reference::generate::content::date;
use reference::generate::draft::{amount_text, Draft, DraftRecord};
use reference::generate::{Generator, Request, Style, RETAILER};

use RecordType::{FileTrailer, OneTimeCharge, PeriodHeader, SiteHeader, TariffCharge, UsageDeterminant};

/// A Record ID above those of the headers.
const FIRST_ID: usize = 1_000_000_000;

/// A file of one site with as many one-time charges as it can have, or of one period with as many records of a type, a day each. Beside
/// charges stands one usage of 0 over the whole period.
fn draft_of(generator: &mut Generator, summed: RecordType) -> Draft {
    if summed == OneTimeCharge {
        return generator.valid_of_charges(&Request::ONE_PERIOD, MOST_LINES - 3);
    }
    let mut draft = generator.valid_of_one_site(&Request::ONE_PERIOD, 6);
    let template = |record_type| draft.records[draft.places(|record| record.record_type == record_type)[0]].clone();
    let (mut usage, template) = (template(UsageDeterminant), template(summed));
    let mut trailer = draft.records.pop().expect("a file has a trailer");
    draft.records.retain(|record| !record.is_period_child());
    if summed == TariffCharge {
        usage.set(amount_field(UsageDeterminant, UsageDeterminant), "0");
        draft.records.push(usage);
    }
    let days = MOST_LINES - draft.records.len() - 1;
    draft.records[1..].iter_mut().for_each(|record| set_days(record, 0, days - 1));
    for day in 0..days {
        let mut record = template.clone();
        record.set(1, (FIRST_ID + day).to_string());
        set_days(&mut record, day, day);
        draft.records.push(record);
    }
    trailer.set(1, (FIRST_ID + days).to_string());
    trailer.set(4, MOST_LINES.to_string());
    draft.records.push(trailer);
    draft
}

fn set_days(record: &mut DraftRecord, start: usize, end: usize) {
    record.set(5, date(start as u32));
    record.set(6, date(end as u32));
}

/// The field of a type that has an amount or a total in the unit of the records that are summed.
fn amount_field(record_type: RecordType, summed: RecordType) -> usize {
    let field = if summed == UsageDeterminant { record_type.usage_field() } else { record_type.charge_field() };
    field.expect("the type has an amount in this unit")
}

/// Gives the first half of the records of a type one sign and the others the other, all amounts as large as they may be but the last, which
/// is one whole unit nearer to 0, and sets all totals.
fn set_amounts(draft: &mut Draft, summed: RecordType, sign: i64) {
    let number = amount_field(summed, summed);
    let FieldType::Number(precision, places) = summed.fields()[number - 1].field_type else { panic!("what is summed is an amount") };
    let (largest, whole) = (10_i64.pow(precision) - 1, 10_i64.pow(places));
    let records = draft.places(|record| record.record_type == summed);
    let mut total = 0;
    for (count, &place) in records.iter().enumerate() {
        let size = if count + 1 == records.len() { largest - whole } else { largest };
        let amount = if count < records.len() / 2 { sign * size } else { -sign * size };
        draft.records[place].set(number, amount_text(amount, places));
        total += amount;
    }
    let (usage, charge) = if summed == UsageDeterminant { (total, 0) } else { (0, total) };
    for record in draft.records.iter_mut().filter(|record| matches!(record.record_type, SiteHeader | PeriodHeader | FileTrailer)) {
        let record_type = record.record_type;
        for (number, text) in [(record_type.usage_field(), amount_text(usage, 4)), (record_type.charge_field(), amount_text(charge, 2))] {
            number.into_iter().for_each(|number| record.set(number, text.as_str()));
        }
    }
}

/// The totals over a type: the record that has each, the test that finds it wrong, and its line.
fn totals_over(summed: RecordType) -> &'static [(RecordType, u32, usize)] {
    match summed {
        UsageDeterminant => &[(SiteHeader, 29, 2), (PeriodHeader, 31, 3)],
        TariffCharge => &[(SiteHeader, 30, 2), (PeriodHeader, 32, 3), (FileTrailer, 34, MOST_LINES)],
        _ => &[(SiteHeader, 30, 2), (FileTrailer, 34, MOST_LINES)],
    }
}

/// Holds a file, and the file with each of its totals a unit off to either side, and with the two totals of each header exchanged.
fn hold_totals(comparison: &mut Comparison, draft: &Draft, summed: RecordType) {
    let mut expect = |draft: &Draft, expected: (u32, usize), what: &str| {
        let answer = comparison.hold(RETAILER, b"0040", &draft.plain_bytes());
        assert_eq!(answer, (expected.0, expected.1 as u32), "{summed:?}: {what}");
    };
    expect(draft, (0, 0), "all totals are right");
    for &(owner, test, line) in totals_over(summed) {
        for units in [-1, 1] {
            let mut wrong = draft.clone();
            wrong.records[line - 1].shift(amount_field(owner, summed), units);
            expect(&wrong, (test, line), "a total is a unit off");
        }
        if let (Some(usage), Some(charge)) = (owner.usage_field(), owner.charge_field()) {
            let mut exchanged = draft.clone();
            exchanged.records[line - 1].fields.swap(usage - 1, charge - 1);
            let test = if owner == SiteHeader { 29 } else { 31 };
            expect(&exchanged, (test, line), "the totals of a header are exchanged");
        }
    }
}

/// Holds such files of each type whose amounts are summed, with either sign first.
pub fn hold(comparison: &mut Comparison, seed: u64) {
    let mut generator = Generator::new(seed, Style::Sample);
    for summed in [OneTimeCharge, TariffCharge, UsageDeterminant] {
        for sign in [1, -1] {
            let mut draft = draft_of(&mut generator, summed);
            assert_eq!(draft.records.len(), MOST_LINES);
            set_amounts(&mut draft, summed, sign);
            hold_totals(comparison, &draft, summed);
        }
    }
}
