//! Ledgers: sound ones, ones with a single fault, and ones with an entry changed at random. Totals, Find and Book of each.

use crate::tally::Tally;
use compare::proved;
use reference::booking::book;
use reference::check::Settings;
use reference::generate::random::Random;
use reference::generate::scenario::SENTENCES;
use reference::generate::{Generator, Style, DISTRIBUTOR, RETAILER};
use reference::ledger::{find, first_broken, totals, Entry, MOST_ENTRIES};
use std::collections::BTreeMap;

/// So many ledgers are made to break each sentence first.
const BROKEN_FOR_EACH: usize = 220;

const SOUND: usize = 400;

/// So many changes are tried on each sound ledger.
const CHANGES: usize = 50;

/// The used entries of larger sound ledgers: about as many as the small scratch of the proved functions has room for, and up to as many
/// as a ledger may have. The runs have some places more where they may.
const LARGE: [usize; 8] = [1_000, 1_023, 1_024, 1_025, 1_026, 3_000, 8_191, 8_192];

struct Comparison {
    tally: Tally,
    distributors: Vec<u8>,
    /// How often each sentence was the first broken.
    broken: BTreeMap<String, u64>,
}

impl Comparison {
    fn hold(&mut self, run: &[Entry], used: usize, asked: &[(u64, u64)], file: &[u8]) {
        if let Some(sentence) = first_broken(run, used) {
            *self.broken.entry(format!("{sentence:?}")).or_insert(0) += 1;
        }
        let expected = totals(run, used).map_err(|refusal| refusal.number);
        self.tally.hold("totals", &(run, used), proved::totals(run, run.len(), used), expected, expected.is_ok());
        for &(site, day) in asked {
            let expected = find(run, used, site, day).map_err(|refusal| refusal.number);
            let proved = proved::find(run, run.len(), used, site, day);
            assert!(proved == expected, "find {site} {day} in {run:?}, {used}: proved {proved:?}, reference {expected:?}");
        }
        self.hold_book(run, used, file);
    }

    fn hold_book(&self, run: &[Entry], used: usize, file: &[u8]) {
        let (mut left, mut expected_left) = (run.to_vec(), run.to_vec());
        let settings = Settings { retailer: RETAILER, distributors: &self.distributors };
        let proved = proved::book(&mut left, run.len(), used, settings, file);
        let expected = book(RETAILER, &self.distributors, file, &mut expected_left, used);
        assert!(proved == expected, "book into {run:?}, {used}: proved {proved:?}, reference {expected:?}");
        assert!(left == expected_left, "book into {run:?}, {used}: proved leaves {left:?}, reference {expected_left:?}");
    }
}

/// Sites and days to ask for: those at the ends of a stored period, and ones out of range.
fn questions(generator: &mut Generator, run: &[Entry], used: usize) -> Vec<(u64, u64)> {
    let mut asked = vec![(10_000_000_000_000, 0), (0, 36_525), (9_999_999_999_999, 36_524)];
    for _ in 0..4 {
        if used == 0 || used > run.len() {
            break;
        }
        let entry = run[generator.random.place(used)];
        asked.extend([(entry.site, entry.start), (entry.site, entry.end), (entry.site, entry.end + 1), (entry.site, entry.start.wrapping_sub(1))]);
    }
    asked
}

/// Changes one field of one entry, or the order of two.
pub fn change(random: &mut Random, run: &mut [Entry], used: usize) {
    let place = random.place(used);
    let other = run[random.place(used)];
    let entry = &mut run[place];
    match random.below(14) {
        0 => entry.sender = random.pick(&[other.sender, 9_999, 10_000]),
        1 => entry.commodity = random.below(4),
        2 => entry.kind = random.below(5),
        3 => entry.record_id = random.pick(&[other.record_id, entry.record_id + 1, 1_000_000_000_000_000]),
        4 => entry.site = random.pick(&[0, other.site, 10_000_000_000_000]),
        5 => entry.start = random.pick(&[0, other.start, entry.end, entry.end + 1]),
        6 => entry.end = random.pick(&[0, other.end, entry.start, 36_525]),
        7 => entry.charge = random.pick(&[0, -entry.charge, other.charge, i64::MIN, 1_000_000_000_000_000]),
        8 => entry.usage = random.pick(&[0, 1, -entry.usage, i64::MIN, -1_000_000_000_000_000]),
        9 => entry.state = random.below(6),
        10 => entry.cancelled_id = random.pick(&[0, other.record_id, entry.record_id]),
        11 => *entry = other,
        _ => run.swap(place, next_place(used, place)),
    }
}

/// The place after this one, or the first.
fn next_place(used: usize, place: usize) -> usize {
    (place + 1) % used
}

/// A file that may be booked into a ledger just drawn.
fn file_to_book(generator: &mut Generator) -> Vec<u8> {
    let request = generator.request();
    let draft = generator.valid(&request);
    generator.write(&draft)
}

/// A sound ledger of just so many used entries, the first of them from many small files.
fn large_ledger(generator: &mut Generator, entries: usize) -> (Vec<Entry>, usize) {
    let (mut run, mut used) = generator.ledger((entries + 8).min(MOST_ENTRIES), 40);
    while used < entries {
        let request = generator.request();
        // A file adds an entry of its own, and a single entry left would be too few for any file.
        let periods = (entries - used - 1).min(700);
        let periods = if entries - used == periods + 2 { periods - 1 } else { periods };
        let draft = generator.valid_of_periods(&request, periods);
        used += generator.book_draft(&draft, &mut run, used);
    }
    assert_eq!(used, entries);
    (run, used)
}

/// Holds a sound ledger, without the places past its used ones too, and with changes.
fn hold_sound(comparison: &mut Comparison, generator: &mut Generator, (run, used): (Vec<Entry>, usize)) {
    let (asked, file) = (questions(generator, &run, used), file_to_book(generator));
    comparison.hold(&run, used, &asked, &file);
    comparison.hold(&run[..used], used, &asked, &file);
    for _ in 0..if used == 0 { 0 } else { CHANGES } {
        let mut changed = run.clone();
        change(&mut generator.random, &mut changed, used);
        let asked = questions(generator, &changed, used);
        comparison.hold(&changed, used, &asked, &file);
    }
}

/// Compares the calls that read a ledger, and answers how many ledgers there were.
pub fn compare(seed: u64) -> u64 {
    let generator = &mut Generator::with_senders(seed, Style::Varied, &[DISTRIBUTOR, 41]);
    let mut comparison = Comparison { tally: Tally::new(), distributors: generator.distributors(), broken: BTreeMap::new() };
    comparison.hold(&[], 0, &[(0, 0)], &file_to_book(generator));
    for count in 0..SOUND {
        let ledger = generator.ledger(200, 1 + count % 12);
        hold_sound(&mut comparison, generator, ledger);
    }
    for entries in LARGE {
        let ledger = large_ledger(generator, entries);
        hold_sound(&mut comparison, generator, ledger);
    }
    for sentence in SENTENCES {
        for _ in 0..BROKEN_FOR_EACH {
            let (run, used) = generator.unsound(sentence);
            comparison.hold(&run, used, &[(0, 0)], &file_to_book(generator));
        }
    }
    for sentence in SENTENCES {
        let met = comparison.broken.get(&format!("{sentence:?}")).copied().unwrap_or(0);
        assert!(met >= 200, "{sentence:?} was the first broken only {met} times");
    }
    let broken: Vec<String> = comparison.broken.iter().map(|(sentence, count)| format!("{sentence}: {count}")).collect();
    println!("first broken {}", broken.join(", "));
    comparison.tally.report("ledgers")
}
