//! The ledgers that Totals and Find are timed on, and what is asked for.

use compare::proved;
use reference::ledger::{find, totals, Entry, Totals};

/// A run that both sides read, and what they must answer.
pub struct Reading {
    run: Vec<Entry>,
    used: usize,
    totals: Result<Totals, u32>,
    site: u64,
    day: u64,
    found: Result<Option<usize>, u32>,
}

impl Reading {
    /// The entries of a ledger in a run of so many places. Asked for is the last live period: a search from the first entry on passes
    /// all others.
    pub fn new(stored: Vec<Entry>, places: usize) -> Reading {
        let used = stored.len();
        let asked = stored.iter().rfind(|entry| entry.is_live_period()).expect("the ledger has live periods");
        let (site, day) = (asked.site, asked.end);
        let mut run = stored;
        run.resize(places, Entry::default());
        let mut reading = Reading { run, used, totals: Err(0), site, day, found: Err(0) };
        (reading.totals, reading.found) = (reading.reference_totals(), reading.reference_find());
        reading
    }

    fn reference_totals(&self) -> Result<Totals, u32> {
        totals(&self.run, self.used).map_err(|refusal| refusal.number)
    }

    fn reference_find(&self) -> Result<Option<usize>, u32> {
        find(&self.run, self.used, self.site, self.day).map_err(|refusal| refusal.number)
    }

    pub fn totals_by_proved(&self) -> bool {
        proved::totals(&self.run, self.run.len(), self.used) == self.totals
    }

    pub fn totals_by_reference(&self) -> bool {
        self.reference_totals() == self.totals
    }

    pub fn find_by_proved(&self) -> bool {
        proved::find(&self.run, self.run.len(), self.used, self.site, self.day) == self.found
    }

    pub fn find_by_reference(&self) -> bool {
        self.reference_find() == self.found
    }
}
