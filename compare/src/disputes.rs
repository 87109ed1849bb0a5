//! Disputes: lines written of the entries of many ledgers, at every place and past the last, with supplied fields and outputs that
//! fit and don't; and lines read, as written, as they may also be written, and damaged.

use crate::inputs::{self, Random};
use crate::tally::Tally;
use compare::proved;
use reference::check::Settings;
use reference::disputes::{dispute, fields_of, read, Supplied, FIELDS, MOST_BYTES};
use reference::fields::FieldType;
use reference::generate::{Generator, Style, DISTRIBUTOR};
use reference::ledger::{kind, state, Entry};
use std::collections::BTreeMap;
use std::fmt::Debug;

/// So many ledgers are drawn.
const LEDGERS: usize = 2_400;

/// So many disputes are asked for of each held entry, and at each other place.
const ASKED: usize = 24;
const ASKED_ELSEWHERE: usize = 3;

/// The ends of a line, and bytes that follow or are none.
const ENDS: [&[u8]; 7] = [b"", b"\r\n", b"\r", b"\n\n", b"\n\r\n", b"\r\r\n", b"\n "];

/// The byte that stands in an output where nothing is written.
const UNTOUCHED: u8 = 0xa5;

struct Comparison {
    random: Random,
    written: Tally,
    read: Tally,
    /// How often each number was answered.
    answers: BTreeMap<String, u64>,
    /// How many lines were written of one-time charges.
    one_time: u64,
}

impl Comparison {
    fn count<T>(&mut self, what: &str, answer: &Result<T, u32>) {
        let number = answer.as_ref().map_or_else(|&number| number, |_| 0);
        *self.answers.entry(format!("{what} {number}")).or_insert(0) += 1;
    }

    fn hold_read(&mut self, line: &[u8]) {
        let expected = read(line);
        self.count("read", &expected);
        self.read.hold("a dispute", &String::from_utf8_lossy(line), proved::read_dispute(line), expected, expected.is_ok());
    }

    /// A line, with another end, with some bytes damaged, with another field, and cut off.
    fn hold_lines(&mut self, line: &[u8]) {
        self.hold_read(line);
        let content = &line[..line.len() - 1];
        let end = ENDS[self.random.below(ENDS.len() as u64) as usize];
        self.hold_read(&[content, end].concat());
        let damaged = inputs::damaged(&mut self.random, line);
        self.hold_read(&damaged);
        let field = 1 + self.random.below(10) as usize;
        let other = self.another_field(FIELDS[field]);
        self.hold_read(&with_field(content, field, &other));
        let cut = self.random.below(line.len() as u64) as usize;
        self.hold_read(&line[..cut]);
    }

    /// What a field of a type may hold, or nearly.
    fn another_field(&mut self, field_type: FieldType) -> Vec<u8> {
        let random = &mut self.random;
        match random.below(6) {
            0 => Vec::new(),
            1 => inputs::amount(random, 15, 0),
            2 => inputs::amount(random, 4, 0),
            3 => {
                let count = random.below(18);
                inputs::digits(random, count)
            }
            _ => filled(random, field_type),
        }
    }

    /// A supplied field: of its type, or seldom empty or damaged.
    fn supplied(&mut self, field_type: FieldType) -> Vec<u8> {
        let fitting = filled(&mut self.random, field_type);
        match self.random.below(30) {
            0 => Vec::new(),
            1 => inputs::damaged(&mut self.random, &fitting),
            2 => inputs::amount(&mut self.random, 15, 0),
            _ => fitting,
        }
    }

    fn hold_dispute(&mut self, settings: Settings, run: &[Entry], used: usize, place: usize) {
        let (transaction, created, file) =
            (self.supplied(FieldType::RecordId), self.supplied(FieldType::DateTime), self.supplied(FieldType::RecordId));
        let supplied = Supplied { transaction: &transaction, created: &created, file: &file };
        let mut longest = [UNTOUCHED; MOST_BYTES];
        let most = dispute(settings, run, used, place, supplied, &mut longest);
        let room = match (most, self.random.below(6)) {
            (Ok(length), 0) => length - 1,
            (Ok(length), 1) => length,
            (_, 2) => self.random.below(120) as usize,
            (_, 3) => 0,
            _ => MOST_BYTES + 9,
        };
        let (mut out, mut expected_out) = (vec![UNTOUCHED; room], vec![UNTOUCHED; room]);
        let expected = dispute(settings, run, used, place, supplied, &mut expected_out);
        let answer = proved::dispute(settings, run, used, place, supplied, &mut out);
        self.count("dispute", &expected);
        let asked: (&dyn Debug, _, _) = (&run.get(place), used, supplied);
        self.written.hold("a dispute", &asked, (answer, out), (expected, expected_out.clone()), expected.is_ok());
        if let Ok(length) = expected {
            self.one_time += u64::from(run[place].kind == kind::ONE_TIME_CHARGE);
            self.hold_lines(&expected_out[..length]);
        }
    }
}

/// A field that fits its type.
fn filled(random: &mut Random, field_type: FieldType) -> Vec<u8> {
    match field_type {
        FieldType::Digits(count) => inputs::digits(random, count as u64),
        FieldType::DateTime => {
            let (month, day) = (1 + random.below(12), 1 + random.below(31));
            let (hour, minute, second) = (random.below(24), random.below(60), random.below(60));
            format!("20{:02}{month:02}{day:02}{hour:02}{minute:02}{second:02}", random.below(100)).into_bytes()
        }
        FieldType::Number(precision, places) => inputs::amount(random, precision.into(), places.into()),
        _ => {
            let count = 1 + random.below(15);
            let mut digits = inputs::digits(random, count);
            if random.below(4) == 0 {
                digits[0] = b'0';
            }
            digits
        }
    }
}

/// A line with another field.
fn with_field(content: &[u8], field: usize, other: &[u8]) -> Vec<u8> {
    let Some(mut fields) = fields_of(content) else { return content.to_vec() };
    fields[field] = other;
    fields.join(&b","[..])
}

/// Some entries are held that were live; one-time charges too, which is sound though no booking makes one.
fn hold_some(random: &mut Random, run: &mut [Entry]) {
    for entry in run {
        if entry.state == state::LIVE && random.below(3) > 0 {
            entry.state = state::HELD;
        }
    }
}

/// Compares the calls that write and read disputes, and answers how many lines were written or read.
pub fn compare(seed: u64) -> u64 {
    let generator = &mut Generator::with_senders(seed, Style::Varied, &[DISTRIBUTOR, 41]);
    let distributors = generator.distributors();
    let mut comparison = Comparison { random: Random::new(seed), written: Tally::new(), read: Tally::new(), answers: BTreeMap::new(), one_time: 0 };
    for count in 0..LEDGERS {
        let (mut run, used) = generator.ledger(40, 1 + count % 4);
        hold_some(&mut comparison.random, &mut run[..used]);
        let retailer = match count % 9 {
            0 if count % 5 == 0 => 1_000_000_000,
            1 => 0,
            _ => comparison.random.below(1_000_000_000),
        };
        let distributors = if count % 31 == 30 { &distributors[..3] } else { &distributors[..] };
        let settings = Settings { retailer, distributors };
        if count % 17 == 0 && used > 0 {
            crate::ledgers::change(&mut generator.random, &mut run, used);
        }
        for place in (0..used + 2).chain([run.len(), usize::MAX]) {
            let held = run[..used].get(place).is_some_and(|entry| entry.state == state::HELD);
            for _ in 0..if held { ASKED } else { ASKED_ELSEWHERE } {
                comparison.hold_dispute(settings, &run, used, place);
            }
        }
    }
    finish(comparison)
}

fn finish(comparison: Comparison) -> u64 {
    let Comparison { written, read, answers, one_time, .. } = comparison;
    for answer in ["dispute 0", "dispute 3", "dispute 104", "dispute 105", "dispute 108", "dispute 109", "read 0", "read 2", "read 3"] {
        let met = answers.get(answer).copied().unwrap_or(0);
        assert!(met >= 500, "{answer} was answered only {met} times");
    }
    assert!(answers["dispute 0"] >= 100_000, "only {} disputes were written", answers["dispute 0"]);
    assert!(one_time >= 500, "only {one_time} disputes were of one-time charges");
    let counts: Vec<String> = answers.iter().map(|(answer, count)| format!("{answer}: {count}")).collect();
    println!("disputes by number: {}; {one_time} of one-time charges", counts.join(", "));
    let dates = (0..=36_525).filter(|&day| {
        assert_eq!(proved::date(day), reference::calendar::date_of(day));
        true
    });
    println!("dates: {} days", dates.count());
    written.report("disputes written") + read.report("disputes read")
}
