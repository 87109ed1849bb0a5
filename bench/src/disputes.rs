//! Disputes: their lines alone, which the reference implementation writes by `write!`, and whole calls, which certify the ledger first.

use crate::ledgers::Ledgers;
use crate::DISTRIBUTORS;
use compare::proved;
use reference::check::Settings;
use reference::disputes::{dispute, read, Dispute, Supplied, MOST_BYTES};
use reference::generate::random::Random;
use reference::generate::RETAILER;
use reference::ledger::{state, Entry, MOST_ENTRIES};
use std::cell::RefCell;

const CREATED: &[u8] = b"20240301120000";

const SUPPLIED: Supplied = Supplied { transaction: b"1234567", created: CREATED, file: b"1234567890" };

/// As many disputes as a ledger may have entries, and room for their lines, one after the other.
pub struct Lines {
    disputes: Vec<Dispute<'static>>,
    out: RefCell<Vec<u8>>,
}

impl Lines {
    /// Disputes whose IDs have up to so many digits.
    pub fn new(random: &mut Random, digits: u32) -> Lines {
        let most = 10_u64.pow(digits);
        let disputes = (0..MOST_ENTRIES as u64).map(|count| Dispute {
            transaction: count + 1,
            retailer: RETAILER,
            distributor: 40,
            created: CREATED,
            file: random.below(most),
            site: random.below(10_000_000_000_000),
            once: false,
            id: random.below(most),
        });
        Lines { disputes: disputes.collect(), out: RefCell::new(vec![0; MOST_ENTRIES * MOST_BYTES]) }
    }

    fn write(&self, line: impl Fn(&Dispute, &mut [u8]) -> usize) -> bool {
        let mut out = self.out.borrow_mut();
        let mut rest = &mut out[..];
        for dispute in &self.disputes {
            let length = line(dispute, rest);
            rest = &mut rest[length..];
        }
        rest.len() < MOST_ENTRIES * MOST_BYTES
    }

    pub fn by_proved(&self) -> bool {
        self.write(proved::dispute_line)
    }

    pub fn by_reference(&self) -> bool {
        self.write(|dispute, out| dispute.write(out))
    }

    /// The lines, as they were written last.
    fn written(&self) -> Vec<Vec<u8>> {
        assert!(self.by_reference());
        let out = self.out.borrow();
        out.split_inclusive(|&byte| byte == b'\n').take(MOST_ENTRIES).map(<[u8]>::to_vec).collect()
    }
}

/// As many lines of disputes to read.
pub struct Written(Vec<Vec<u8>>);

impl Written {
    pub fn new(random: &mut Random) -> Written {
        Written(Lines::new(random, 10).written())
    }

    pub fn by_proved(&self) -> bool {
        self.0.iter().all(|line| proved::read_dispute(line).is_ok())
    }

    pub fn by_reference(&self) -> bool {
        self.0.iter().all(|line| read(line).is_ok())
    }
}

/// A ledger, the place of a held entry, and room for a line.
pub struct Asked {
    run: Vec<Entry>,
    place: usize,
    out: RefCell<[u8; MOST_BYTES]>,
}

impl Asked {
    pub fn new(ledgers: &mut Ledgers, entries: usize) -> Asked {
        let mut run = ledgers.full(entries);
        let place = run.iter().rposition(|entry| entry.state == state::LIVE).expect("some entry is live");
        run[place].state = state::HELD;
        Asked { run, place, out: RefCell::new([0; MOST_BYTES]) }
    }

    fn settings() -> Settings<'static> {
        Settings { retailer: RETAILER, distributors: DISTRIBUTORS }
    }

    pub fn by_proved(&self) -> bool {
        proved::dispute(Self::settings(), &self.run, self.run.len(), self.place, SUPPLIED, &mut self.out.borrow_mut()[..]).is_ok()
    }

    pub fn by_reference(&self) -> bool {
        dispute(Self::settings(), &self.run, self.run.len(), self.place, SUPPLIED, &mut self.out.borrow_mut()[..]).is_ok()
    }
}
