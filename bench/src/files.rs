//! The files that Check is timed on. All but one pass every test.

use crate::longest::lengthen;
use reference::fields::FieldType;
use reference::file::{MOST_BYTES, MOST_LINES};
use reference::generate::draft::{Draft, DraftRecord, LineEnd};
use reference::generate::random::Random;
use reference::generate::{Generator, Request, Style};
use std::collections::{HashMap, HashSet};

/// IDs have at most 15 digits.
const RECORD_ID_LIMIT: u64 = 1_000_000_000_000_000;

/// Site IDs have 13 digits.
const SITE_LIMIT: u64 = 10_000_000_000_000;

/// How Record IDs and Site IDs are drawn.
#[derive(Clone, Copy)]
pub enum Ids {
    /// Each greater than the one before it.
    Rising,
    /// At random.
    Random,
    /// At random, but all in one bucket of the proved code's hash tables.
    OneBucket,
}

/// How many buckets the proved code's hash tables have for a file of more than 1,024 lines.
const BUCKETS: u64 = 8_192;

/// The bucket of an ID in the proved code's hash tables.
fn bucket(id: u64) -> u64 {
    let folded = id % (1 << 32) + id / (1 << 32);
    (folded * 2_135_587_861 / (1 << 20)) % BUCKETS
}

/// Draws IDs below a limit, no two alike.
struct FreshIds {
    limit: u64,
    /// The one bucket that the IDs are to fill, if there is one.
    only_bucket: Option<u64>,
    drawn: HashSet<u64>,
}

impl FreshIds {
    fn new(limit: u64, only_bucket: Option<u64>) -> FreshIds {
        FreshIds { limit, only_bucket, drawn: HashSet::new() }
    }

    fn draw(&mut self, random: &mut Random) -> u64 {
        loop {
            let id = random.below(self.limit);
            if self.only_bucket.is_none_or(|only| bucket(id) == only) && self.drawn.insert(id) {
                return id;
            }
        }
    }
}

/// Replaces the IDs in a field, equal ones by equal ones.
fn replace_ids(records: &mut [DraftRecord], numbers: impl Fn(&DraftRecord) -> Vec<usize>, mut draw: impl FnMut() -> String) {
    let mut replacements: HashMap<String, String> = HashMap::new();
    for record in records {
        for number in numbers(record) {
            if !record.field(number).is_empty() {
                let replacement = replacements.entry(record.field(number).to_owned()).or_insert_with(&mut draw).clone();
                record.set(number, replacement);
            }
        }
    }
}

/// Draws new Record IDs, with their Parent IDs, and new Site IDs.
fn redraw_ids(draft: &mut Draft, random: &mut Random, only_bucket: Option<u64>) {
    let mut record_ids = FreshIds::new(RECORD_ID_LIMIT, only_bucket);
    replace_ids(&mut draft.records, |_| vec![1, 2], || record_ids.draw(random).to_string());
    let mut sites = FreshIds::new(SITE_LIMIT, only_bucket);
    let site_field = |record: &DraftRecord| record.record_type.site_field().into_iter().collect();
    replace_ids(&mut draft.records, site_field, || format!("{:013}", sites.draw(random)));
}

/// Draws files, each another one.
pub struct Files {
    generator: Generator,
}

impl Files {
    pub fn new() -> Files {
        Files { generator: Generator::new(3, Style::Sample) }
    }

    /// A file of so many lines and many sites, a period each.
    pub fn many_sites(&mut self, lines: usize, ids: Ids) -> Vec<u8> {
        self.many_sites_draft(lines, ids).plain_bytes()
    }

    pub fn many_sites_draft(&mut self, lines: usize, ids: Ids) -> Draft {
        let mut draft = self.generator.valid_of_lines(&Request::ONE_PERIOD, lines);
        let random = &mut self.generator.random;
        match ids {
            Ids::Rising => {}
            Ids::Random => redraw_ids(&mut draft, random, None),
            Ids::OneBucket => {
                let only = random.below(BUCKETS);
                redraw_ids(&mut draft, random, Some(only));
            }
        }
        draft
    }

    /// A file of so many lines and one site with so many periods.
    pub fn one_site(&mut self, lines: usize, periods: usize) -> Vec<u8> {
        self.one_site_draft(lines, periods).plain_bytes()
    }

    pub fn one_site_draft(&mut self, lines: usize, periods: usize) -> Draft {
        self.generator.valid_of_one_site(&Request { periods, ..Request::ONE_PERIOD }, lines)
    }

    /// A file of as many charges as one site can have: FH, SH and FT leave 4,093 lines.
    pub fn most_charges(&mut self) -> Vec<u8> {
        self.generator.valid_of_charges(&Request::ONE_PERIOD, MOST_LINES - 3).plain_bytes()
    }

    /// So many Site IDs, all in one bucket.
    pub fn sites_of_one_bucket(&mut self, count: usize) -> Vec<u64> {
        let random = &mut self.generator.random;
        let mut sites = FreshIds::new(SITE_LIMIT, Some(random.below(BUCKETS)));
        (0..count).map(|_| sites.draw(random)).collect()
    }

    /// A file of as many lines as a file may have, all its fields filled and as long as their types allow.
    pub fn longest_fields(&mut self) -> Vec<u8> {
        written(&self.longest_draft())
    }

    /// A file of as many bytes as a file may have. No records that fit their types are so long: what is missing is in a Varchar
    /// field of the last record before the trailer, at which test 3 fails.
    pub fn most_bytes(&mut self) -> Vec<u8> {
        let mut draft = self.longest_draft();
        let missing = MOST_BYTES - written(&draft).len();
        let place = draft.records.len() - 2;
        let types = draft.records[place].record_type.fields();
        let varchar = types.iter().position(|field| matches!(field.field_type, FieldType::Varchar(_)));
        let varchar = varchar.expect("all records but the header's and the trailer's have a Varchar field");
        draft.records[place].fields[varchar].push_str(&"X".repeat(missing));
        written(&draft)
    }

    fn longest_draft(&mut self) -> Draft {
        let mut draft = self.generator.valid_of_lines(&Request::ONE_PERIOD, MOST_LINES);
        draft.records.iter_mut().for_each(lengthen);
        draft
    }
}

fn written(draft: &Draft) -> Vec<u8> {
    draft.write(|| LineEnd::ReturnAndFeed, true)
}
