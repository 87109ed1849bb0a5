//! Lists of bookings, each from used count 0 over a run of any length and content. After each call: the answer, every place of the run
//! and some past it, Totals and some Finds. After each list: demand 3, unless the ledger was changed between calls.

use crate::digest::Digest;
use crate::ledgers::change;
use crate::recording::{words_of_booking, words_of_find, words_of_totals, Answers, Find, Recording, FINDS};
use crate::tally::Tally;
use compare::proved::{self, bytes_of, Book};
use reference::booking::{book, Answer};
use reference::check::Settings;
use reference::generate::damage::CHECK_TESTS;
use reference::generate::history::{any_run, Call, History};
use reference::generate::random::Random;
use reference::judge::{self, judge};
use reference::ledger::{find, kind, sound, state, totals, Entry, Totals, MOST_ENTRIES};
use std::collections::BTreeMap;
use std::fmt::{self, Debug, Formatter};

const LISTS: u64 = 5_000;

/// So many lists, one after the other, have runs of all shapes. The first round may be written down.
const ROUND: u64 = 250;

/// The proved functions copy a ledger of at most so many entries into small scratch, and a larger one into large scratch.
const SMALL_SCRATCH: usize = 1_024;

/// The numbers of Book that are no tests of Check.
const OTHER_NUMBERS: [u32; 8] = [104, 105, 103, 8, 39, 40, 102, 101];

/// Each number of Book is the answer at least so many times.
const MET: u64 = 200;

/// So many entries stand past the run, and must stay as they are.
const MARGIN: usize = 2;

/// A run and a used count, for both sides.
struct Ledger {
    /// The run as the reference implementation leaves it, and the entries past it.
    expected: Vec<Entry>,
    /// The same as the function under test leaves it.
    entries: Vec<Entry>,
    places: usize,
    used: usize,
    /// Whether the run isn't what the last call left.
    is_lent_anew: bool,
}

impl Ledger {
    /// An empty ledger over a run of so many places, the entries past them being no part of it.
    fn new(entries: Vec<Entry>, places: usize) -> Ledger {
        Ledger { expected: entries.clone(), entries, places, used: 0, is_lent_anew: true }
    }

    fn run(&self) -> &[Entry] {
        &self.expected[..self.places]
    }

    fn stored(&self) -> &[Entry] {
        &self.expected[..self.used]
    }

    /// The first place at which the two sides differ.
    fn first_difference(&self) -> Option<usize> {
        (0..self.expected.len()).find(|&place| self.entries[place] != self.expected[place])
    }

    /// The entries, the length of the run and the used count, to restore.
    fn saved(&self) -> (Vec<Entry>, usize, usize) {
        (self.expected.clone(), self.places, self.used)
    }

    fn restore(&mut self, (entries, places, used): (Vec<Entry>, usize, usize)) {
        *self = Ledger { used, ..Ledger::new(entries, places) };
    }

    /// Changes an entry, the used count or the length of the run.
    fn disturb(&mut self, random: &mut Random) {
        self.is_lent_anew = true;
        let (used, places) = (self.used, self.places);
        match random.below(8) {
            0 => self.used = random.pick(&[places + 1, places + 9, 1 << 63, usize::MAX]),
            1 => self.used = places.min(used + random.between(1, 5) as usize),
            2 => self.used = random.place(used + 1),
            3 => self.places = random.between(used as u64, places as u64) as usize,
            _ if used == 0 => {}
            _ => {
                change(random, &mut self.expected, used);
                self.entries.clone_from(&self.expected);
            }
        }
    }
}

/// The run of a list, and its files.
struct Shape {
    places: usize,
    /// So many entries are booked before other calls.
    filled: usize,
    has_large_files: bool,
}

impl Shape {
    fn of_places(least: usize, most: usize, random: &mut Random) -> Shape {
        Shape { places: random.between(least as u64, most as u64) as usize, filled: 0, has_large_files: false }
    }

    /// A run that is filled but for a few places.
    fn filled(places: usize, random: &mut Random) -> Shape {
        Shape { places, filled: places - random.pick(&[0, 1, 2, 40]), has_large_files: false }
    }

    /// A run in which other calls find about as many entries as the small scratch has room for, and room for more.
    fn at_small_scratch(places: usize, random: &mut Random) -> Shape {
        Shape { filled: SMALL_SCRATCH - 3 + random.place(6), ..Shape::of_places(places, places, random) }
    }

    /// The shape of the list of a number. Mostly it has room for a list, sometimes none or little; some runs are as long as a ledger
    /// may be, or longer, and in some as many entries are used as the small scratch has room for.
    fn of_list(number: u64, random: &mut Random) -> Shape {
        match number % ROUND {
            0 => Shape::filled(MOST_ENTRIES, random),
            1 => Shape { has_large_files: true, ..Shape::of_places(MOST_ENTRIES, MOST_ENTRIES, random) },
            2 => Shape { has_large_files: true, ..Shape::at_small_scratch(MOST_ENTRIES, random) },
            3..=5 => Shape::at_small_scratch(MOST_ENTRIES, random),
            6..=8 => Shape::at_small_scratch(2 * SMALL_SCRATCH, random),
            9..=10 => Shape::filled(SMALL_SCRATCH - 1, random),
            11..=12 => Shape::filled(SMALL_SCRATCH, random),
            13..=14 => Shape::filled(SMALL_SCRATCH + 1, random),
            15 => Shape::of_places(MOST_ENTRIES + 1, MOST_ENTRIES + 8, random),
            16 => Shape::of_places(9_000, 9_000, random),
            17 => Shape::of_places(0, 0, random),
            18 => Shape::of_places(1, 1, random),
            19..=26 => Shape::of_places(2, 10, random),
            27..=66 => Shape::of_places(11, 60, random),
            _ => Shape::of_places(61, 400, random),
        }
    }
}

/// A list of bookings under way.
struct List {
    number: u64,
    history: History,
    ledger: Ledger,
    /// So many entries are booked before other calls.
    filled: usize,
    /// Whether somebody else changes the ledger now and then.
    is_disturbed: bool,
    /// How many calls it has, those that fill the ledger aside.
    calls: u64,
    /// The files so far, and whether they were accepted.
    files: Vec<(Vec<u8>, bool)>,
}

impl List {
    /// A list over a run that may hold the entries of an earlier one.
    fn new(number: u64, earlier: &[Entry]) -> List {
        let mut history = History::new(number);
        let random = history.random();
        let Shape { places, filled, has_large_files } = Shape::of_list(number, random);
        let ledger = Ledger::new(any_run(random, places + MARGIN, earlier), places);
        let (calls, is_disturbed) = (random.between(10, 40), random.percent(20));
        if has_large_files {
            history = history.with_large_files();
        }
        List { number, history, ledger, filled, is_disturbed, calls, files: Vec::new() }
    }

    /// The next call that brings the ledger nearer to what is to be filled.
    fn filling_call(&mut self) -> Call {
        let left = self.filled - self.ledger.used;
        let entries = left.min(self.history.random().between(200, 1_000) as usize);
        // A single entry left would be too few for any file.
        let entries = if left == entries + 1 { entries - 1 } else { entries };
        self.history.filling_call(entries)
    }

    /// Now and then changes the ledger, and answers what it was before.
    fn disturb(&mut self) -> Option<(Vec<Entry>, usize, usize)> {
        if !self.is_disturbed || self.history.random().percent(70) {
            return None;
        }
        let saved = self.ledger.saved();
        self.ledger.disturb(self.history.random());
        Some(saved)
    }
}

/// A call of a list, as it is shown where the two sides disagree.
struct Shown<'a>(&'a List, &'a Call);

impl Debug for Shown<'_> {
    fn fmt(&self, to: &mut Formatter) -> fmt::Result {
        let Shown(list, call) = self;
        let Ledger { places, used, .. } = list.ledger;
        let distributors = String::from_utf8_lossy(&call.distributors);
        let start = String::from_utf8_lossy(&call.file[..call.file.len().min(4_000)]);
        write!(to, "call {} of list {}, {used} of {places} places used, ", list.files.len(), list.number)?;
        write!(to, "retailer {}, distributors {distributors:?}, file {start:?}", call.retailer)
    }
}

/// How many files were accepted, told by the entries then used.
#[derive(Debug, Default)]
struct Accepted {
    /// From no more than the small scratch has room for to more.
    past_small_scratch: u64,
    /// With more than the small scratch has room for, before and after.
    in_large_scratch: u64,
    /// Up to the last place of the run.
    to_the_last_place: u64,
    /// Up to the last place of a run as long as a ledger may be.
    to_the_most_entries: u64,
}

impl Accepted {
    fn count(&mut self, places: usize, before: usize, after: usize) {
        let is_past = after > SMALL_SCRATCH;
        self.past_small_scratch += u64::from(is_past && before <= SMALL_SCRATCH);
        self.in_large_scratch += u64::from(is_past && before > SMALL_SCRATCH);
        self.to_the_last_place += u64::from(after == places);
        self.to_the_most_entries += u64::from(after == MOST_ENTRIES);
    }
}

struct Comparison {
    book: Book,
    tally: Tally,
    /// Of what the functions under test answer and leave.
    digest: Digest,
    recording: Option<Recording>,
    /// How often each number was the answer.
    answers: BTreeMap<u32, u64>,
    accepted: Accepted,
    /// How many entries the lists left in each state.
    states: [u64; 5],
    /// How many periods were cancelled that were billed in place of one cancelled before.
    cancelled_again: u64,
    judged: u64,
    /// The entries that the list before left.
    earlier: Vec<Entry>,
}

impl Comparison {
    fn hold_list(&mut self, number: u64) {
        let mut list = List::new(number, &self.earlier);
        while list.ledger.used < list.filled {
            let call = list.filling_call();
            assert!(self.hold_call(&mut list, call), "a file that fills the ledger of list {number} is refused");
            list.history.accepted(list.ledger.stored());
        }
        for _ in 0..list.calls {
            self.hold_next_call(&mut list);
        }
        if !list.is_disturbed {
            self.judge(&list);
        }
        self.count_entries(list.ledger.stored());
        self.earlier = list.ledger.expected;
    }

    /// Holds the next call of a list. A ledger that was changed and isn't sound any more is restored after the call.
    fn hold_next_call(&mut self, list: &mut List) {
        let call = list.history.next_call(list.ledger.stored());
        let before = list.disturb();
        let is_accepted = self.hold_call(list, call);
        match before {
            Some(before) if !sound(list.ledger.run(), list.ledger.used) => list.ledger.restore(before),
            _ if is_accepted => list.history.accepted(list.ledger.stored()),
            _ => {}
        }
    }

    /// Holds a call of a list, and answers whether the file was accepted.
    fn hold_call(&mut self, list: &mut List, call: Call) -> bool {
        if let Some(recording) = &mut self.recording {
            recording.call(list.ledger.run(), list.ledger.used, list.ledger.is_lent_anew, &call);
        }
        let booking = self.hold_book(list, &call);
        let (totals, finds) = (self.hold_totals(list), [(); FINDS].map(|()| self.hold_find(list)));
        hold_run(list, &call);
        if let Some(recording) = &mut self.recording {
            recording.answers(&Answers { booking, run: list.ledger.run(), totals, finds });
        }
        let is_accepted = matches!(booking, Answer::Booked { .. });
        list.ledger.is_lent_anew = false;
        list.files.push((call.file, is_accepted));
        is_accepted
    }

    fn hold_book(&mut self, list: &mut List, call: &Call) -> Answer {
        let Call { retailer, distributors, file } = call;
        let settings = Settings { retailer: *retailer, distributors };
        let Ledger { expected, entries, places, used, .. } = &mut list.ledger;
        let proved = (self.book)(entries, *places, *used, settings, file);
        let answer = book(*retailer, distributors, file, &mut expected[..*places], *used);
        let (number, added) = match answer {
            Answer::Booked { added, .. } => (0, added),
            Answer::Refused(refusal) => (refusal.number, 0),
        };
        self.tally.hold("book", &Shown(list, call), proved, answer, number == 0);
        hold_run(list, call);
        self.digest.fold(&words_of_booking(proved));
        self.digest.fold_bytes(bytes_of(&list.ledger.entries[..list.ledger.places]));
        *self.answers.entry(number).or_insert(0) += 1;
        let before = list.ledger.used;
        list.ledger.used += added;
        if number == 0 {
            self.accepted.count(list.ledger.places, before, list.ledger.used);
        }
        answer
    }

    fn hold_totals(&mut self, list: &List) -> Result<Totals, u32> {
        let Ledger { entries, places, used, .. } = &list.ledger;
        let expected = totals(list.ledger.run(), *used).map_err(|refusal| refusal.number);
        let proved = proved::totals(entries, *places, *used);
        assert!(proved == expected, "totals after call {} of list {}: proved {proved:?}, reference {expected:?}", list.files.len(), list.number);
        self.digest.fold(&words_of_totals(proved));
        expected
    }

    /// Holds Find at or near an end of a stored period.
    fn hold_find(&mut self, list: &mut List) -> Find {
        let Ledger { entries, places, used, .. } = &list.ledger;
        let run = list.ledger.run();
        let (site, day) = question(list.history.random(), run, *used);
        let answer = find(run, *used, site, day).map_err(|refusal| refusal.number);
        let proved = proved::find(entries, *places, *used, site, day);
        let after = format_args!("after call {} of list {}", list.files.len(), list.number);
        assert!(proved == answer, "find {site} {day} {after}: proved {proved:?}, reference {answer:?}");
        self.digest.fold(&words_of_find(proved));
        Find { site, day, answer }
    }

    /// Judges a list whose ledger nobody else changed, by the entries that the function under test left.
    fn judge(&mut self, list: &List) {
        let List { number, ledger, files, .. } = list;
        let calls: Vec<judge::Call> = files.iter().map(|(file, accepted)| judge::Call { file, accepted: *accepted }).collect();
        let verdict = judge(&calls, &ledger.entries[..ledger.places], ledger.used);
        assert!(verdict.is_ok(), "list {number}: {verdict:?}");
        self.judged += 1;
    }

    fn count_entries(&mut self, stored: &[Entry]) {
        for (place, entry) in stored.iter().enumerate() {
            self.states[entry.state as usize] += 1;
            let is_cancelled_too = |other: &Entry| {
                let is_alike = (other.sender, other.site, other.period()) == (entry.sender, entry.site, entry.period());
                is_alike && other.kind == kind::PERIOD && other.state == state::CANCELLED
            };
            self.cancelled_again += u64::from(is_cancelled_too(entry) && stored[..place].iter().any(is_cancelled_too));
        }
    }

    fn report(self) -> u64 {
        for number in CHECK_TESTS.into_iter().chain(OTHER_NUMBERS) {
            let met = self.answers.get(&number).copied().unwrap_or(0);
            assert!(met >= MET, "{number} was the answer only {met} times");
        }
        let [_, live, held, cancelled, cancels] = self.states;
        assert!(held >= 5_000 && cancelled == cancels && self.cancelled_again >= 1_000, "{:?}, {}", self.states, self.cancelled_again);
        let Accepted { past_small_scratch, in_large_scratch, to_the_last_place, to_the_most_entries } = self.accepted;
        let least = [(past_small_scratch, 100), (in_large_scratch, 1_000), (to_the_last_place, 400), (to_the_most_entries, 5)];
        assert!(least.iter().all(|(count, least)| count >= least), "{:?}", self.accepted);
        let answers: Vec<String> = self.answers.iter().map(|(number, count)| format!("{number}: {count}")).collect();
        println!("answers {}", answers.join(", "));
        println!("accepted past {SMALL_SCRATCH} entries {past_small_scratch}, with more before {in_large_scratch}");
        println!("accepted to the last place {to_the_last_place}, of them {to_the_most_entries} of {MOST_ENTRIES} places");
        println!("left live {live}, held {held}, cancelled {cancelled}, of them {} rebilled and cancelled again", self.cancelled_again);
        println!("lists {LISTS}, judged {}", self.judged);
        self.tally.report_with("bookings", &self.digest)
    }
}

/// Holds every place of the run, and those past it.
fn hold_run(list: &List, call: &Call) {
    if let Some(place) = list.ledger.first_difference() {
        let (proved, expected) = (list.ledger.entries[place], list.ledger.expected[place]);
        panic!("place {place} after {:?}: proved {proved:?}, reference {expected:?}", Shown(list, call));
    }
}

/// A site and a day to ask for.
fn question(random: &mut Random, run: &[Entry], used: usize) -> (u64, u64) {
    if used == 0 || used > run.len() || random.percent(3) {
        return random.pick(&[(10_000_000_000_000, 0), (0, 36_525), (9_999_999_999_999, 36_524), (1, 100)]);
    }
    let entry = run[random.place(used)];
    let day = random.pick(&[entry.start, entry.end, entry.end.wrapping_add(1), entry.start.wrapping_sub(1)]);
    (entry.site, day)
}

/// Compares a function that books, and answers how many bookings there were. The lists of the first round go into the recording.
pub fn compare(seed: u64, book: Book, recording: Option<Recording>) -> u64 {
    let mut comparison = Comparison {
        book,
        tally: Tally::new(),
        digest: Digest::new(),
        recording,
        answers: BTreeMap::new(),
        accepted: Accepted::default(),
        states: [0; 5],
        cancelled_again: 0,
        judged: 0,
        earlier: Vec::new(),
    };
    for number in 0..LISTS {
        if number == ROUND {
            comparison.recording.take().into_iter().for_each(Recording::finish);
        }
        comparison.hold_list(seed + number);
    }
    comparison.report()
}
