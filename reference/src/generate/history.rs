//! Lists of bookings: files that build on those accepted before, and among
//! them damaged ones, repeated ones, cancels that nearly fit, files that are
//! too large, and settings that don't fit.

use std::collections::HashSet;

use crate::file::{MOST_BYTES, MOST_LINES};
use crate::generate::cancels::MISTAKES;
use crate::generate::damage::CHECK_TESTS;
use crate::generate::draft::Draft;
use crate::generate::random::Random;
use crate::generate::{Generator, Request, Style, RETAILER};
use crate::ledger::Entry;

/// The senders of a list are the first two or all three of these.
const SENDERS: [u64; 3] = [40, 7_041, 9_999];

/// Files above this are not sent again.
const MOST_REPEATED: usize = 65_536;

/// IDs have at most 15 digits.
const ID_LIMIT: u64 = 1_000_000_000_000_000;

/// A call of Book beside the ledger that it is lent: "Each call has a file and
/// settings of its own".
#[derive(Clone, Debug)]
pub struct Call {
    /// The retailer of the settings.
    pub retailer: u64,
    /// The distributor IDs of the settings.
    pub distributors: Vec<u8>,
    /// The file.
    pub file: Vec<u8>,
}

/// Draws the calls of a list, each upon the ledger that those before it left.
pub struct History {
    generator: Generator,
    /// The Record IDs of some files are drawn below this.
    id_limit: u64,
    /// Whether some files have hundreds of lines.
    has_large_files: bool,
    /// The files of the list so far.
    files: Vec<Vec<u8>>,
    /// The draft of the last call, if its file is just that.
    draft: Option<Draft>,
}

impl History {
    /// The list of a seed.
    pub fn new(seed: u64) -> Self {
        let mut random = Random::new(seed);
        let style = if random.percent(85) { Style::Varied } else { Style::Sample };
        let senders = &SENDERS[..random.pick(&[2, 3])];
        History {
            generator: Generator::with_senders(random.number(), style, senders),
            id_limit: random.pick(&[400, 20_000, 1_000_000, ID_LIMIT, ID_LIMIT]),
            has_large_files: false,
            files: Vec::new(),
            draft: None,
        }
    }

    /// The list with some files of hundreds of lines, for a ledger that has
    /// room for them.
    #[must_use]
    pub fn with_large_files(self) -> Self {
        History { has_large_files: true, ..self }
    }

    /// Where choices come from.
    pub fn random(&mut self) -> &mut Random {
        &mut self.generator.random
    }

    /// The next call, the used entries being these.
    pub fn next_call(&mut self, stored: &[Entry]) -> Call {
        self.draft = None;
        let file = self.next_file(stored);
        if file.len() <= MOST_REPEATED {
            self.files.push(file.clone());
        }
        let (retailer, distributors) = self.settings();
        Call { retailer, distributors, file }
    }

    /// A call that adds so many entries, at least two, for which nothing but
    /// little room is in the way: its file has new Record IDs and no cancels,
    /// and its settings fit.
    pub fn filling_call(&mut self, entries: usize) -> Call {
        let request = self.generator.request();
        let draft = self.generator.valid_of_periods(&request, entries - 1);
        let file = self.generator.write(&draft);
        self.draft = Some(draft);
        Call { retailer: RETAILER, distributors: self.generator.distributors(), file }
    }

    /// Takes note of the used entries after the last call, which was accepted,
    /// so that later files may cancel its originals.
    pub fn accepted(&mut self, stored: &[Entry]) {
        if let Some(draft) = self.draft.take() {
            self.generator.accept(&draft);
        }
        self.generator.keep_open(stored);
    }

    fn next_file(&mut self, stored: &[Entry]) -> Vec<u8> {
        if self.has_large_files && self.random().percent(12) {
            return self.long_file();
        }
        match self.random().below(100) {
            0..=37 => self.valid_file(),
            38..=55 => self.generator.puzzle_with_ids(stored, self.id_limit),
            56..=72 => self.cancel_file(stored),
            73..=84 => {
                let test = self.random().pick(&CHECK_TESTS);
                let request = self.generator.request();
                self.generator.damaged_once(&request, test)
            }
            85..=87 => {
                let file = self.valid_file();
                self.draft = None;
                self.generator.edited(&file)
            }
            88..=92 => self.repeated_file(),
            93..=97 => {
                let number = self.random().pick(&[8, 39, 40, 102, 102]);
                let request = self.generator.request();
                self.generator.spoiled_once(&request, number, stored)
            }
            98 => self.large_file(),
            _ => {
                let length = self.random().place(300);
                self.generator.noise(length)
            }
        }
    }

    fn valid_file(&mut self) -> Vec<u8> {
        let request = self.generator.request();
        let draft = self.generator.valid(&request);
        let file = self.generator.write(&draft);
        self.draft = Some(draft);
        file
    }

    /// A valid file of hundreds of lines: of many sites, of one site, or with
    /// many cancels.
    fn long_file(&mut self) -> Vec<u8> {
        let request = self.generator.request();
        let lines = self.random().between(300, 1_200) as usize;
        let draft = match self.random().below(3) {
            0 => self.generator.valid_of_lines(&request, lines),
            1 => {
                let request = Request { periods: lines / 6, ..request };
                self.generator.valid_of_one_site(&request, lines)
            }
            _ => self.generator.valid(&Request { cancels: lines / 10, ..request }),
        };
        let file = self.generator.write(&draft);
        self.draft = Some(draft);
        file
    }

    /// A file of cancels, one of them often wrong, or a valid file where there
    /// is nothing to cancel.
    fn cancel_file(&mut self, stored: &[Entry]) -> Vec<u8> {
        let has_mistake = self.random().percent(45);
        let mistake = self.random().pick(&MISTAKES);
        let mistake = has_mistake.then_some(mistake);
        match self.generator.cancel_file(stored, mistake, self.id_limit) {
            Some(file) => file,
            None => self.valid_file(),
        }
    }

    /// An earlier file of the list, as it was, under a new file ID, or under
    /// new Record IDs.
    fn repeated_file(&mut self) -> Vec<u8> {
        if self.files.is_empty() {
            return self.valid_file();
        }
        let place = self.generator.random.place(self.files.len());
        let moved = self.generator.random.between(1, 900_000_000_000_000);
        match self.generator.random.below(3) {
            0 => self.files[place].clone(),
            1 => with_moved_ids(&self.files[place], moved, |record_type| record_type == "FH"),
            _ => with_moved_ids(&self.files[place], moved, |_| true),
        }
    }

    /// A file past a limit or at it: with empty lines, or with a long last
    /// line.
    fn large_file(&mut self) -> Vec<u8> {
        let mut file = self.valid_file();
        self.draft = None;
        let past = self.random().pick(&[0, 1, 1, 1, 500]);
        if self.random().percent(75) {
            let lines = file.iter().filter(|&&byte| byte == b'\n').count();
            file.resize(file.len() + (MOST_LINES + past).saturating_sub(lines), b'\n');
        } else {
            file.resize(MOST_BYTES + past, b'A');
        }
        file
    }

    /// Mostly the settings that fit all files, else ones that don't fit, or
    /// ones of other retailers and distributors.
    fn settings(&mut self) -> (u64, Vec<u8>) {
        let (mut retailer, mut distributors) = (RETAILER, self.generator.distributors());
        let random = &mut self.generator.random;
        match random.below(300) {
            0 => retailer = random.pick(&[RETAILER + 1, u64::MAX, 1 << 32]),
            1 => drop(distributors.pop()),
            2 => distributors.extend_from_slice(b"00"),
            3 => distributors.clear(),
            4 => distributors[random.place(4)] = random.pick(b" ax/:\0\xff"),
            5 => distributors = distributors.repeat(32),
            6 => retailer = random.below(RETAILER),
            7 => distributors.truncate(4),
            8 => distributors = b"0041".repeat(32),
            9 => distributors.splice(0..0, *b"12345678").for_each(drop),
            _ => {}
        }
        (retailer, distributors)
    }
}

impl Generator {
    /// Forgets the accepted originals that are neither live nor held among the
    /// used entries.
    fn keep_open(&mut self, stored: &[Entry]) {
        let open = stored.iter().filter(|entry| entry.is_live_or_held());
        let open: HashSet<(u64, u64)> = open.map(|entry| (entry.sender, entry.record_id)).collect();
        self.sent.retain(|sent| open.contains(&(sent.sender, sent.record_id)));
    }
}

/// A file whose records of some types have other Record IDs, and all records
/// the Parent IDs to match. What can't be read stays as it is.
fn with_moved_ids(file: &[u8], moved: u64, is_moved: impl Fn(&str) -> bool) -> Vec<u8> {
    let Ok(text) = std::str::from_utf8(file) else { return file.to_vec() };
    let lines: Vec<Vec<&str>> = text.split('\n').map(|line| line.split(',').collect()).collect();
    let id = |fields: &[&str], place: usize| fields.get(place)?.parse::<u64>().ok();
    let moved_ids: Vec<u64> = lines
        .iter()
        .filter(|fields| fields.get(2).is_some_and(|record_type| is_moved(record_type)))
        .filter_map(|fields| id(fields, 0))
        .collect();
    let moved_line = |fields: &Vec<&str>| {
        let mut written: Vec<String> = fields.iter().map(|&field| field.to_owned()).collect();
        for place in [0, 1] {
            if let Some(old) = id(fields, place).filter(|old| moved_ids.contains(old)) {
                written[place] = ((old + moved) % ID_LIMIT).to_string();
            }
        }
        written.join(",")
    };
    lines.iter().map(moved_line).collect::<Vec<_>>().join("\n").into_bytes()
}

/// A run of this length and any content: seldom zeros, else what no entry may
/// hold, words at random, or the entries of another run, which may look like
/// entries in use.
pub fn any_run(random: &mut Random, length: usize, other: &[Entry]) -> Vec<Entry> {
    match random.below(10) {
        0 => vec![Entry::default(); length],
        1..=3 => vec![Entry { kind: 77, charge: i64::MIN, ..Entry::default() }; length],
        4..=6 => (0..length).map(|_| any_entry(random)).collect(),
        _ => {
            let unused = Entry { state: 1, ..Entry::default() };
            (0..length).map(|place| other.get(place).copied().unwrap_or(unused)).collect()
        }
    }
}

/// An entry of words at random.
fn any_entry(random: &mut Random) -> Entry {
    Entry {
        sender: random.number(),
        commodity: random.number(),
        kind: random.number(),
        record_id: random.number(),
        site: random.number(),
        start: random.number(),
        end: random.number(),
        charge: random.number() as i64,
        usage: random.number() as i64,
        state: random.number(),
        cancelled_id: random.number(),
    }
}
