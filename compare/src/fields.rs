//! Fields: dates, date times, amounts, identifiers, shared days and rejection codes.

use crate::inputs::{self, Random};
use crate::tally::Tally;
use compare::proved;
use reference::fields::{Amount, FieldType, AMOUNT_PRECISION};
use reference::file::RECORD_TYPES;
use reference::{calendar, codes, fields, periods};
use std::fmt::{self, Display, Formatter};

/// The widths of Tables 4-2 to 4-10, and some that no table has.
const WIDTHS: [(u64, u64); 22] = [
    (15, 0),
    (14, 4),
    (11, 2),
    (4, 0),
    (3, 0),
    (14, 9),
    (13, 4),
    (10, 4),
    (2, 0),
    (7, 6),
    (12, 4),
    (15, 6),
    (9, 6),
    (19, 12),
    (9, 0),
    (15, 14),
    (15, 15),
    (1, 0),
    (0, 0),
    (2, 5),
    (16, 2),
    (u64::MAX, 3),
];

/// Dates that the calendar nearly takes, beside which every date is tried whole and damaged.
const EDGE_DATES: [&[u8]; 14] = [
    b"",
    b"20010229",
    b"20000230",
    b"21000101",
    b"19991231",
    b"20000001",
    b"20001301",
    b"20000100",
    b"20000132",
    b"20000431",
    b"99999999",
    b"-2000101",
    b"200001 1",
    b"\xff0000101",
];

/// Amounts that documents 01 and 02 tell apart, and near ones.
const EDGE_AMOUNTS: [&[u8]; 26] = [
    b"",
    b" ",
    b"   ",
    b"\t",
    b"0 ",
    b"00",
    b"-00.0",
    b"-",
    b".",
    b"-.",
    b"12.",
    b".5",
    b"-.5",
    b"12.5",
    b"-0",
    b"-0.00",
    b"0.005",
    b"00012.50",
    b"1.2.3",
    b"--1",
    b"+1",
    b"1-",
    b"1e3",
    b"99999999999999999999",
    b"\xff",
    b"0",
];

/// So many amounts are drawn for each width.
const DRAWN_FOR_EACH: usize = 6_000;

/// Misses of each width are met at least so many times, and values too where it can have some.
const MET: u64 = 1_000;

fn hold_day(tally: &mut Tally, date: &[u8]) {
    let expected = calendar::day_of(date);
    tally.hold("day", &date, proved::day(date), expected.ok_or(3), expected.is_some());
}

fn days(random: &mut Random) -> u64 {
    let mut tally = Tally::new();
    for date in EDGE_DATES {
        hold_day(&mut tally, date);
    }
    for year in 1999..=2100 {
        for month in 0..=13 {
            for day in 0..=32 {
                let date = format!("{year:04}{month:02}{day:02}").into_bytes();
                hold_day(&mut tally, &date);
                hold_day(&mut tally, &inputs::damaged(random, &date));
            }
        }
    }
    for _ in 0..20_000 {
        hold_day(&mut tally, &inputs::noise(random));
        hold_day(&mut tally, &inputs::digits(random, 8));
    }
    tally.report("days")
}

fn hold_date_time(tally: &mut Tally, field: &[u8]) {
    let expected = calendar::moment_of(field).map(|(day, second)| (u64::from(day), u64::from(second)));
    tally.hold("date time", &field, proved::date_time(field), expected, expected.is_some());
}

fn date_times(random: &mut Random) -> u64 {
    let mut tally = Tally::new();
    for _ in 0..40_000 {
        let (year, month, day) = (1999 + random.below(103), random.below(14), random.below(33));
        let (hour, minute, second) = (random.below(26), random.below(62), random.below(62));
        let field = format!("{year:04}{month:02}{day:02}{hour:02}{minute:02}{second:02}").into_bytes();
        hold_date_time(&mut tally, &field);
        hold_date_time(&mut tally, &inputs::damaged(random, &field));
        hold_date_time(&mut tally, &inputs::noise(random));
    }
    tally.report("date times")
}

/// How often each answer was met for a width.
struct Answers {
    width: (u64, u64),
    missing: u64,
    values: u64,
    misses: u64,
}

impl Answers {
    fn new(width: (u64, u64)) -> Answers {
        Answers { width, missing: 0, values: 0, misses: 0 }
    }

    fn hold(&mut self, tally: &mut Tally, field: &[u8]) {
        let (precision, places) = self.width;
        let narrow = |n: u64| u32::try_from(n).unwrap_or(u32::MAX);
        let expected = fields::amount_of(field, narrow(precision), narrow(places));
        let proved = proved::amount(field, precision, places);
        tally.hold("amount", &(field, precision, places), proved, expected, expected != Amount::Misses);
        match proved {
            Amount::Missing => self.missing += 1,
            Amount::Value(_) => self.values += 1,
            Amount::Misses => self.misses += 1,
        }
    }

    /// Whether a filled field of this width can have a value.
    fn can_be_read(&self) -> bool {
        let (precision, places) = self.width;
        places < precision && precision <= u64::from(AMOUNT_PRECISION)
    }

    fn assert_met(&self) {
        let values_are_met = if self.can_be_read() { self.values >= MET } else { self.values == 0 };
        assert!(self.missing >= 1 && values_are_met && self.misses >= MET, "missing, values and misses of {self}");
    }
}

impl Display for Answers {
    fn fmt(&self, to: &mut Formatter) -> fmt::Result {
        let Answers { width: (precision, places), missing, values, misses } = self;
        write!(to, "({precision},{places}) {missing} {values} {misses}")
    }
}

fn amounts_of(tally: &mut Tally, random: &mut Random, width: (u64, u64)) -> Answers {
    let mut answers = Answers::new(width);
    for field in EDGE_AMOUNTS {
        answers.hold(tally, field);
    }
    let (precision, places) = width;
    for _ in 0..DRAWN_FOR_EACH {
        let field = inputs::amount(random, precision.min(20), places);
        answers.hold(tally, &field);
        answers.hold(tally, &inputs::damaged(random, &field));
        answers.hold(tally, &inputs::noise(random));
    }
    answers
}

/// All amount fields have widths that are tried.
fn assert_widths() {
    for record_type in RECORD_TYPES {
        for number in record_type.amount_fields() {
            let field_type = record_type.fields()[number - 1].field_type;
            let is_tried = |&(precision, places): &(u64, u64)| match field_type {
                FieldType::Number(p, s) => (u64::from(p), u64::from(s)) == (precision, places),
                _ => false,
            };
            assert!(WIDTHS.iter().any(is_tried), "{field_type:?} is not tried");
        }
    }
}

fn amounts(random: &mut Random) -> u64 {
    assert_widths();
    let mut tally = Tally::new();
    let answers = WIDTHS.map(|width| amounts_of(&mut tally, random, width));
    answers.iter().for_each(Answers::assert_met);
    println!("missing, values and misses of {}", answers.map(|answers| answers.to_string()).join(", "));
    tally.report("amounts")
}

fn hold_digits(tally: &mut Tally, field: &[u8], count: u64) {
    let expected = match count {
        0 => fields::identifier_of(field),
        _ => fields::fixed_digits(field, count as usize),
    };
    tally.hold("digits", &(field, count), proved::digits(field, count), expected, expected.is_some());
}

fn identifiers(random: &mut Random) -> u64 {
    let mut tally = Tally::new();
    for count in [0, 4, 9, 13, 1, 15, 16] {
        hold_digits(&mut tally, b"", count);
        for _ in 0..4_000 {
            let length = if random.below(2) == 0 { count } else { random.below(18) };
            let field = inputs::digits(random, length);
            hold_digits(&mut tally, &field, count);
            hold_digits(&mut tally, &inputs::damaged(random, &field), count);
        }
    }
    tally.report("identifiers")
}

fn shared_days(random: &mut Random) -> u64 {
    let mut tally = Tally::new();
    for _ in 0..40_000 {
        let mut draw = || (random.below(40), random.below(40));
        let (one, other) = (draw(), draw());
        let expected = periods::shares_day(one, other);
        tally.hold("shared day", &(one, other), proved::shares_day(one, other), expected, expected);
    }
    tally.report("periods")
}

fn rejection_codes(random: &mut Random) -> u64 {
    let mut tally = Tally::new();
    let mut hold = |test: u64| {
        let expected = codes::rejection_code(test);
        tally.hold("code", &test, proved::code(test), expected.ok_or(107), expected.is_some());
    };
    (0..10_000).for_each(&mut hold);
    (0..10_000).for_each(|_| hold(random.word()));
    tally.report("codes")
}

/// Compares the readings of fields, and answers how many inputs there were.
pub fn compare(seed: u64) -> u64 {
    let random = &mut Random::new(seed);
    days(random) + date_times(random) + amounts(random) + identifiers(random) + shared_days(random) + rejection_codes(random)
}
