//! Generated files and ledgers: the two forms of each call agree, valid files
//! are accepted, damaged ones fail as intended, and the archive's guarantee
//! holds.

use std::collections::BTreeMap;

use reference::bill::Bill;
use reference::booking::{book, Answer};
use reference::check::{check, Refusal};
use reference::conditions::{ConditionalField, CONDITIONAL_FIELDS};
use reference::fields::Amount;
use reference::file::{RecordType, Records};
use reference::generate::cancels::{Mistake, MISTAKES};
use reference::generate::damage::CHECK_TESTS;
use reference::generate::history::{any_run, Call, History};
use reference::generate::random::Random;
use reference::generate::scenario::{LEDGER_NUMBERS, SENTENCES};
use reference::generate::{Generator, Request, Style, RETAILER};
use reference::judge;
use reference::ledger::{first_broken, kind, sound, state, Entry};
use reference::periods::shares_day;
use reference::plain;

const SENDERS: [u64; 3] = [40, 7, 9_999];

fn both_checks(distributors: &[u8], file: &[u8]) -> (u32, u32) {
    let answer = check(RETAILER, distributors, file);
    assert_eq!(plain::check(RETAILER, distributors, file), answer);
    answer
}

/// Books by both forms, which must leave the same answer and the same run.
fn both_books(distributors: &[u8], file: &[u8], run: &mut [Entry], used: usize) -> Answer {
    both_books_of(RETAILER, distributors, file, run, used)
}

/// The same with the retailer of the settings.
fn both_books_of(
    retailer: u64,
    distributors: &[u8],
    file: &[u8],
    run: &mut [Entry],
    used: usize,
) -> Answer {
    let before = run.to_vec();
    let mut plain_run = before.clone();
    let answer = book(retailer, distributors, file, run, used);
    assert_eq!(plain::book(retailer, distributors, file, &mut plain_run, used), answer);
    assert!(run == plain_run);
    match answer {
        Answer::Refused(_) => assert!(run == before),
        Answer::Booked { added, .. } => {
            assert!(run[used + added..] == before[used + added..]);
            assert!(sound(run, used + added));
        }
    }
    answer
}

#[test]
fn valid_files_pass() {
    for seed in 0..60 {
        for style in [Style::Sample, Style::Varied] {
            let mut generator = Generator::with_senders(seed, style, &SENDERS);
            let distributors = generator.distributors();
            for _ in 0..8 {
                let request = generator.request();
                let draft = generator.valid(&request);
                generator.accept(&draft);
                let file = generator.write(&draft);
                assert_eq!(both_checks(&distributors, &file), (0, 0), "seed {seed} {style:?}");
            }
        }
    }
}

/// In the varied style each amount that isn't mandatory is often left out, and
/// often 0.
#[test]
fn amounts_left_out() {
    let mut generator = Generator::new(3, Style::Varied);
    let mut counts = BTreeMap::new();
    for _ in 0..300 {
        let request = generator.full_request();
        for record in &generator.valid(&request).records {
            for number in record.record_type.optional_amount_fields() {
                let [all, missing, zeros] =
                    counts.entry((record.record_type.code(), number)).or_insert([0; 3]);
                *all += 1;
                match record.amount(number) {
                    Amount::Missing => *missing += 1,
                    Amount::Value(0) => *zeros += 1,
                    Amount::Value(_) => {}
                    Amount::Misses => panic!("{record:?} is valid"),
                }
            }
        }
    }
    assert_eq!(counts.len(), 8);
    for [all, missing, zeros] in counts.values() {
        assert!(*all > 300 && missing * 4 > *all && zeros * 4 > *all, "{counts:?}");
    }
}

/// How often a field was met.
#[derive(Debug, Default)]
struct Met {
    asked_for: usize,
    zeros_asked_for: usize,
    left_out: usize,
    filled: usize,
}

/// In the varied style each field that test 6 asks for under a condition is
/// filled where it holds, an amount often with 0, and often left out and often
/// filled where it doesn't.
#[test]
fn conditional_fields() {
    let mut generator = Generator::new(3, Style::Varied);
    let mut counts: BTreeMap<(&str, usize), Met> = BTreeMap::new();
    for _ in 0..1_500 {
        let request = Request { cancels: 4, ..generator.full_request() };
        let draft = generator.valid(&request);
        generator.begin_ledger();
        generator.accept(&draft);
        for (place, record) in draft.records.iter().enumerate() {
            let of_type = |row: &&ConditionalField| row.record_type == record.record_type;
            for row in CONDITIONAL_FIELDS.iter().filter(of_type) {
                let met = counts.entry((record.record_type.code(), row.number)).or_default();
                let is_empty = record.field(row.number).is_empty();
                if draft.meets(place, row.condition) {
                    assert!(!is_empty, "field {} of {record:?}", row.number);
                    met.asked_for += 1;
                    met.zeros_asked_for +=
                        usize::from(record.amount(row.number) == Amount::Value(0));
                } else {
                    met.left_out += usize::from(is_empty);
                    met.filled += usize::from(!is_empty);
                }
            }
        }
    }
    assert_eq!(counts.len(), CONDITIONAL_FIELDS.len());
    for row in CONDITIONAL_FIELDS {
        let met = &counts[&(row.record_type.code(), row.number)];
        let is_amount = row.record_type.amount_fields().any(|number| number == row.number);
        assert!(!is_amount || met.zeros_asked_for > 100, "{row:?}: {met:?}");
        assert!(met.asked_for > 300 && met.left_out > 300 && met.filled > 300, "{row:?}: {met:?}");
    }
}

/// The ways in which the condition of a reading doesn't hold all occur, in
/// files that pass, with the reading left out.
#[test]
fn readings_left_out() {
    let mut generator = Generator::new(4, Style::Varied);
    let mut ways: BTreeMap<(bool, bool), usize> = BTreeMap::new();
    for _ in 0..300 {
        let request = generator.full_request();
        let draft = generator.valid(&request);
        assert_eq!(both_checks(b"0040", &draft.plain_bytes()), (0, 0));
        for place in draft.places(|record| record.record_type == RecordType::UsageDeterminant) {
            if draft.records[place].field(13).is_empty() {
                let header = &draft.records[draft.period_header(place).unwrap()];
                let way = (header.field(11) == "E", draft.records[place].field(8) == "C");
                *ways.entry(way).or_insert(0) += 1;
            }
        }
    }
    assert!(!ways.contains_key(&(true, true)), "{ways:?}");
    for way in [(true, false), (false, true), (false, false)] {
        assert!(ways.get(&way).is_some_and(|&count| count > 100), "{ways:?}");
    }
}

#[test]
fn damaged_files_fail_their_test() {
    for seed in 0..25 {
        let style = if seed % 2 == 0 { Style::Varied } else { Style::Sample };
        let mut generator = Generator::new(seed, style);
        for test in CHECK_TESTS {
            let file = generator.damaged(test);
            assert_eq!(both_checks(b"0040", &file).0, test, "seed {seed}");
        }
    }
}

#[test]
fn edited_files_and_noise() {
    let mut numbers = std::collections::BTreeSet::new();
    for seed in 0..150 {
        let mut generator = Generator::new(seed, Style::Varied);
        for _ in 0..20 {
            let request = generator.request();
            let draft = generator.valid(&request);
            let file = generator.write(&draft);
            let edited = generator.edited(&file);
            numbers.insert(both_checks(b"0040", &edited).0);
            let length = generator.random.place(60);
            let noise = generator.noise(length);
            both_checks(b"0040", &noise);
        }
    }
    assert!(numbers.len() > 10, "{numbers:?}");
}

#[test]
fn limits() {
    let mut generator = Generator::new(5, Style::Varied);
    let answers: Vec<(&str, (u32, u32))> = generator
        .limits()
        .iter()
        .map(|(name, file)| (*name, check(RETAILER, b"0040", file)))
        .collect();
    let expected = [
        ("4096 lines", (0, 0)),
        ("4096 lines, the last without its end", (0, 0)),
        ("4096 lines and an empty one", (103, 0)),
        ("4097 lines", (103, 0)),
        ("4096 empty lines", (2, 1)),
        ("4097 empty lines", (103, 0)),
        ("1048576 bytes", (3, 2)),
        ("1048577 bytes", (103, 0)),
        ("1048576 bytes in a line", (2, 1)),
        ("1048577 bytes in a line", (103, 0)),
        ("1048576 commas", (2, 1)),
    ];
    assert_eq!(answers, expected);
}

#[test]
fn most_charges_of_one_site() {
    let mut generator = Generator::new(9, Style::Varied);
    let request = generator.request();
    let draft = generator.valid_of_charges(&request, 4_093);
    assert_eq!(draft.records.len(), 4_096);
    let file = generator.write(&draft);
    assert_eq!(both_checks(b"0040", &file), (0, 0));
}

#[test]
fn many_periods_of_one_site() {
    let mut generator = Generator::new(9, Style::Varied);
    let request = Request { sites: 1, periods: 300, one_time_sites: 0, ..generator.request() };
    let draft = generator.valid_of_lines(&request, 2_500);
    assert_eq!(draft.records.len(), 2_500);
    let file = generator.write(&draft);
    assert_eq!(both_checks(b"0040", &file), (0, 0));
}

/// A record booked, as demand 3 speaks of it.
struct Booked {
    sender: u64,
    commodity: u64,
    record_type: RecordType,
    record_id: u64,
    site: u64,
    days: (u64, u64),
    is_cancel: bool,
    state: u64,
}

/// The booked records of an accepted file, the cancels and then the originals.
fn booked_records(file: &[u8]) -> Vec<(Booked, Option<u64>)> {
    let records = Records::of(file).ok().unwrap();
    let bill = Bill::of(&records).unwrap();
    let booked = |cancels: bool| {
        let rows = bill.rows.iter().filter(move |row| row.is_booked() && row.is_cancel == cancels);
        let (sender, commodity) = (bill.sender_id(), bill.commodity as u64);
        rows.map(move |row| {
            let record = Booked {
                sender,
                commodity,
                record_type: row.record_type,
                record_id: row.record_id,
                site: row.site.unwrap(),
                days: row.period.unwrap_or_default(),
                is_cancel: row.is_cancel,
                state: 0,
            };
            (record, row.reference)
        })
    };
    booked(true).chain(booked(false)).collect()
}

/// Takes a file's records one by one, as the words of demand 3 have it.
fn take_turns(booked: &mut Vec<Booked>, file: &[u8]) {
    for (mut record, reference) in booked_records(file) {
        if record.is_cancel {
            for original in booked.iter_mut() {
                let named = !original.is_cancel
                    && Some(original.record_id) == reference
                    && original.sender == record.sender
                    && original.commodity == record.commodity
                    && original.record_type == record.record_type
                    && original.site == record.site
                    && original.days == record.days;
                if named {
                    original.state = 0;
                }
            }
        } else {
            let is_period = record.record_type == RecordType::PeriodHeader;
            let is_held = is_period
                && booked.iter().any(|other| {
                    other.record_type == RecordType::PeriodHeader
                        && other.state == state::LIVE
                        && other.site == record.site
                        && shares_day(other.days, record.days)
                });
            record.state = if is_held { state::HELD } else { state::LIVE };
        }
        booked.push(record);
    }
}

/// "After the list the used entries in state 1 are exactly those of the live
/// records, and the used entries in state 2 exactly those of the held ones, in
/// booking order."
#[test]
fn archive_guarantee() {
    let mut held_in_all = 0;
    for seed in 0..120 {
        let mut generator = Generator::with_senders(seed, Style::Varied, &SENDERS);
        let distributors = generator.distributors();
        let mut run = vec![Entry { kind: 9, usage: i64::MAX, ..Entry::default() }; 150];
        let mut used = 0;
        let mut booked = Vec::new();
        for _ in 0..25 {
            let request = generator.request();
            let draft = generator.valid(&request);
            let file = generator.write(&draft);
            let file = if generator.random.percent(15) { generator.edited(&file) } else { file };
            match both_books(&distributors, &file, &mut run, used) {
                Answer::Booked { added, held } => {
                    used += added;
                    held_in_all += held;
                    take_turns(&mut booked, &file);
                    generator.accept(&draft);
                }
                Answer::Refused(Refusal { number, .. }) => {
                    assert!(number != 105 && number != 104, "seed {seed}");
                }
            }
        }
        for wanted in [state::LIVE, state::HELD] {
            let of_entries: Vec<_> = run[..used]
                .iter()
                .filter(|entry| entry.state == wanted)
                .map(|entry| (entry.sender, entry.record_id, entry.kind == kind::PERIOD))
                .collect();
            let of_records: Vec<_> = booked
                .iter()
                .filter(|record| record.state == wanted)
                .map(|record| {
                    let is_period = record.record_type == RecordType::PeriodHeader;
                    (record.sender, record.record_id, is_period)
                })
                .collect();
            assert_eq!(of_entries, of_records, "seed {seed}");
        }
    }
    assert!(held_in_all > 100, "{held_in_all}");
}

/// Lists of bookings: both forms agree call by call, and demand 3 is kept.
#[test]
fn histories() {
    let mut answers = BTreeMap::new();
    for seed in 0..200 {
        let mut history = History::new(seed);
        let length = history.random().place(300);
        let mut run = any_run(history.random(), length, &[]);
        let mut used = 0;
        let mut files = Vec::new();
        for _ in 0..25 {
            let Call { retailer, distributors, file } = history.next_call(&run[..used]);
            let answer = both_books_of(retailer, &distributors, &file, &mut run, used);
            if let Answer::Booked { added, .. } = answer {
                used += added;
                history.accepted(&run[..used]);
            }
            *answers.entry(number_of(answer)).or_insert(0) += 1;
            files.push((file, number_of(answer) == 0));
        }
        let calls: Vec<judge::Call> = files
            .iter()
            .map(|(file, accepted)| judge::Call { file, accepted: *accepted })
            .collect();
        assert_eq!(judge::judge(&calls, &run, used), Ok(()), "seed {seed}");
    }
    for number in [0, 104, 103, 8, 39, 40, 102, 101].into_iter().chain(CHECK_TESTS) {
        assert!(answers.contains_key(&number), "{number}: {answers:?}");
    }
    assert!(!answers.contains_key(&105));
}

/// Cancels without a mistake are booked, and a mistake is seen by its test.
/// Of a one-time charge neither days nor usage are compared. Now and then a
/// record under a cancel is of another site, or a Record ID is 0, which may be
/// stored.
#[test]
fn cancel_files() {
    let wanted = |mistake: Option<Mistake>| match mistake {
        None => 0,
        Some(Mistake::NoReference) => 6,
        Some(Mistake::OtherCharge | Mistake::OtherUsage) => 40,
        Some(_) => 39,
    };
    for mistake in MISTAKES.map(Some).into_iter().chain([None]) {
        let mut met = 0;
        for seed in 0..40 {
            let mut generator = Generator::with_senders(seed, Style::Varied, &SENDERS);
            let distributors = generator.distributors();
            let (mut run, used) = generator.ledger(256, 8);
            let file = generator.cancel_file(&run[..used], mistake, 1_000_000_000_000).unwrap();
            let number = number_of(both_books(&distributors, &file, &mut run, used));
            assert!(
                [0, 8, 38, 102, wanted(mistake)].contains(&number),
                "seed {seed}, {mistake:?}: {number}"
            );
            met += usize::from(number == wanted(mistake));
        }
        assert!(met >= 20, "{mistake:?}: {met}");
    }
}

#[test]
fn puzzles() {
    let mut checked = BTreeMap::new();
    let mut booked = BTreeMap::new();
    for seed in 0..120 {
        let mut generator = Generator::with_senders(seed, Style::Varied, &SENDERS[..2]);
        let distributors = generator.distributors();
        let mut run = vec![Entry::default(); 50];
        let mut used = 0;
        for _ in 0..40 {
            let file = generator.puzzle(&run[..used]);
            *checked.entry(both_checks(&distributors, &file).0).or_insert(0) += 1;
            let answer = both_books(&distributors, &file, &mut run, used);
            if let Answer::Booked { added, .. } = answer {
                used += added;
            }
            *booked.entry(number_of(answer)).or_insert(0) += 1;
        }
    }
    for number in [0, 6, 9, 18, 29, 30, 31, 32, 34, 38] {
        assert!(checked.contains_key(&number), "{number}: {checked:?}");
    }
    for number in [0, 8, 39, 40, 102, 101] {
        assert!(booked.contains_key(&number), "{number}: {booked:?}");
    }
}

fn number_of(answer: Answer) -> u32 {
    match answer {
        Answer::Booked { .. } => 0,
        Answer::Refused(refusal) => refusal.number,
    }
}

#[test]
fn refused_bookings() {
    for seed in 0..12 {
        let mut generator = Generator::with_senders(seed, Style::Varied, &SENDERS);
        for number in LEDGER_NUMBERS {
            let mut scenario = generator.refused_booking(number);
            let distributors = generator.distributors();
            let answer =
                both_books(&distributors, &scenario.file, &mut scenario.run, scenario.used);
            assert!(
                matches!(answer, Answer::Refused(refusal) if refusal.number == number),
                "seed {seed}, {number}"
            );
        }
    }
}

#[test]
fn unsound_ledgers() {
    for seed in 0..12 {
        let mut generator = Generator::with_senders(seed, Style::Varied, &SENDERS);
        for sentence in SENTENCES {
            let (run, used) = generator.unsound(sentence);
            assert!(!sound(&run, used), "seed {seed}, {sentence:?}");
            assert!(!plain::sound(&run, used), "seed {seed}, {sentence:?}");
        }
    }
}

/// Small changes of sound ledgers are judged alike by all forms.
#[test]
fn soundness_forms_agree() {
    let mut sound_ones = 0;
    for seed in 0..40 {
        let mut generator = Generator::with_senders(seed, Style::Varied, &SENDERS);
        let (run, used) = generator.ledger(120, 10);
        let mut random = Random::new(seed);
        for _ in 0..60 {
            let mut changed = run.clone();
            change(&mut random, &mut changed[..used]);
            let is_sound = sound(&changed, used);
            assert_eq!(plain::sound(&changed, used), is_sound);
            assert_eq!(first_broken(&changed, used).is_none(), is_sound);
            sound_ones += usize::from(is_sound);
        }
    }
    assert!(sound_ones > 50);
}

fn change(random: &mut Random, entries: &mut [Entry]) {
    if entries.is_empty() {
        return;
    }
    let place = random.place(entries.len());
    let other = entries[random.place(entries.len())];
    let entry = &mut entries[place];
    match random.below(12) {
        0 => entry.sender = other.sender,
        1 => entry.commodity = random.below(4),
        2 => entry.kind = random.below(5),
        3 => entry.record_id = other.record_id,
        4 => entry.site = other.site,
        5 => entry.start = other.start,
        6 => entry.end = other.end,
        7 => entry.charge = -other.charge,
        8 => entry.usage = -other.usage,
        9 => entry.state = random.below(6),
        10 => entry.cancelled_id = other.record_id,
        _ => {
            let swapped = random.place(entries.len());
            entries.swap(place, swapped);
        }
    }
}
