//! Check, Book, Totals, Find and disputes, the proved functions beside the reference implementation.
//!
//! `cargo run --release --offline` times both sides in one run: medians of 11, each on a fresh input, and their ratios.
//! `cargo run --release --offline -- ledger` times Book, Totals and Find alone, and `-- disputes` disputes. `PADDING` is how many bytes stand before the code
//! (none where it isn't set): tools/layouts.py times it in several layouts.
//!
//! `cargo run --release --offline -- builds BEFORE AFTER` times Check by two builds of the library, each a shared object, beside each
//! other on the same files: tools/builds.py makes them of static libraries, in several layouts.
//!
//! `cargo run --release --offline -- profile SIDE N` calls one side N times on one input and prints nothing, for a profiler. SIDE
//! is `proved-check` or `reference-check` (a file of 4,096 lines and many sites), one of these two with `-of-one-site` at its end,
//! the first of them with `-of-most-charges` (4,093 of one site), `-refused-by-2`, `-refused-by-3` or `-refused-by-30` (near the end),
//! `proved-book` or `reference-book` (100 periods into 8,000 entries), `proved-totals`, `reference-totals`, `proved-find` or
//! `reference-find` (8,000 entries), or one of the first two of these with `-of-100` at its end (100 entries). The instructions of a
//! call are those of N = 11 without those of N = 1, divided by 10: `valgrind --tool=callgrind target/release/bench profile
//! reference-check 11`.

mod booking;
mod builds;
mod disputes;
mod files;
mod hurt;
mod ledgers;
mod longest;
mod profile;
mod reading;
mod timing;

use booking::{Booking, Bookings};
use compare::proved;
use disputes::{Asked, Lines, Written};
use files::{Files, Ids};
use hurt::LATE_FAILURES;
use ledgers::Ledgers;
use reading::Reading;
use reference::check::check;
use reference::file::RecordType;
use reference::generate::random::Random;
use reference::generate::RETAILER;
use reference::ledger::{Entry, MOST_ENTRIES};
use timing::{medians, medians_of_kinds, medians_of_restored_kinds, report, report_growth, Medians};

// where the code stands
std::arch::global_asm!(concat!(".text\n.skip ", env!("PADDING"), ", 0x90"));

const DISTRIBUTORS: &[u8] = b"0040";

const LINES: [usize; 3] = [256, 1_024, 4_096];

/// The entries in use of the ledgers that a file is booked into.
const USED: [usize; 3] = [1_000, 4_000, 8_000];

/// The entries in use of the ledgers that are read.
const USED_AND_READ: [usize; 4] = [100, 1_000, 4_000, 8_000];

/// The places of a small run, as the desk's is.
const SMALL_PLACES: usize = 512;

/// The entries in use of a small run.
const SMALL_USED: [usize; 3] = [0, 100, 400];

/// The number and line of a passing file.
const PASSES: (u32, u32) = (0, 0);

fn reference_check(file: &[u8]) -> (u32, u32) {
    check(RETAILER, DISTRIBUTORS, file)
}

fn proved_check(file: &[u8]) -> (u32, u32) {
    proved::check(RETAILER, DISTRIBUTORS, file)
}

fn check_medians(draw: impl FnMut() -> Vec<u8>, expected: (u32, u32)) -> Medians {
    medians(draw, expected, |file| proved_check(file), |file| reference_check(file))
}

/// Times files of each number of lines, and answers the medians.
fn report_lines(what: &str, mut draw: impl FnMut(usize) -> Vec<u8>) -> [Medians; 3] {
    let medians = medians_of_kinds(|size| draw(LINES[size]), PASSES, |file| proved_check(file), |file| reference_check(file));
    for (lines, medians) in LINES.iter().zip(&medians) {
        report(&format!("check, {lines} lines, {what}"), medians);
    }
    medians
}

/// Times files of 4,096 lines that a test refuses. The line is another one in each file: that both sides answer the same is compare's.
fn report_refused(what: &str, test: u32, draw: impl FnMut() -> Vec<u8>) {
    let medians = medians(draw, test, |file| proved_check(file).0, |file| reference_check(file).0);
    report(&format!("check, 4096 lines, {what}"), &medians);
}

/// Files with one wrong record near their end, and files that are made to hurt.
fn report_hurt() {
    let mut files = Files::new();
    for test in LATE_FAILURES {
        report_refused(&format!("refused by test {test} near the end"), test, || files.wrong_at_the_end(test));
    }
    let (site, period, charge) = (RecordType::SiteHeader, RecordType::PeriodHeader, RecordType::OneTimeCharge);
    report_refused("2047 sites, refused by test 30 at the last", 30, || files.last_total_wrong(charge, site));
    report_refused("2047 sites, refused by test 32 at the last", 32, || files.last_total_wrong(period, period));
    report("check, 4096 lines, 2047 sites in one bucket", &check_medians(|| files.sites_in_one_bucket(), PASSES));
    let what = "check, 4096 lines, 2047 headers of one site, each with a period that shares days with all others";
    report(what, &check_medians(|| files.headers_of_one_site(), PASSES));
}

fn report_checks() {
    let mut files = Files::new();
    let kinds = [("IDs rising", Ids::Rising), ("IDs random", Ids::Random), ("IDs in one bucket", Ids::OneBucket)];
    let mut growths = Vec::new();
    for (ids, kind) in kinds {
        let what = format!("many sites, {ids}");
        growths.push((what.clone(), report_lines(&what, |lines| files.many_sites(lines, kind))));
    }
    let what = "one site with a thousand periods in 4096 lines";
    growths.push((what.to_owned(), report_lines(what, |lines| files.one_site(lines, lines * 1_000 / 4_096))));
    report("check, 4096 lines, 4093 charges of one site", &check_medians(|| files.most_charges(), PASSES));
    report("check, 4096 lines, all fields as long as they may be", &check_medians(|| files.longest_fields(), PASSES));
    report("check, 4096 lines, 1048576 bytes, refused by test 3 at line 4095", &check_medians(|| files.most_bytes(), (3, 4_095)));
    for (what, [_, smaller, larger]) in growths {
        report_growth(&format!("check, from 1024 to 4096 lines, {what}"), &smaller, &larger);
    }
}

/// Times bookings that are accepted or that a number refuses.
fn report_booking(what: &str, number: u32, mut draw: impl FnMut() -> Booking) {
    let [medians] = medians_of_restored_kinds(|_| draw(), number, Booking::restore, Booking::by_proved, Booking::by_reference);
    report(&format!("intake_book, {what}"), &medians);
}

/// Times bookings of some periods into ledgers of three sizes, in runs of so many places.
fn report_periods(bookings: &mut Bookings, periods: usize, used: [usize; 3], places: usize) {
    let draw = |size: usize| bookings.periods(periods, used[size], places);
    let sizes: [Medians; 3] = medians_of_restored_kinds(draw, 0, Booking::restore, Booking::by_proved, Booking::by_reference);
    for (used, medians) in used.iter().zip(&sizes) {
        report(&format!("intake_book, {periods} periods into {used} entries of {places} places"), medians);
    }
    let [smallest, _, largest] = used;
    report_growth(&format!("intake_book, {periods} periods, from {smallest} to {largest} entries"), &sizes[0], &sizes[2]);
}

fn report_bookings() {
    let mut bookings = Bookings::new();
    report_periods(&mut bookings, 100, USED, MOST_ENTRIES);
    report_periods(&mut bookings, 20, SMALL_USED, SMALL_PLACES);
    report_booking("4096 lines into an empty ledger", 0, || bookings.most_lines());
    report_booking("1000 cancels into 4001 entries", 0, || bookings.cancels(1_000, 3_000));
    report_booking("1000 cancels into 4001 entries, refused by 39 at the last", 39, || bookings.cancels_without_the_last(1_000, 3_000));
    report_booking("4093 periods of one site into a ledger with as many of it", 0, || bookings.one_site());
}

/// Times Totals and Find of ledgers in runs of so many places.
fn report_readings<const SIZES: usize>(used: [usize; SIZES], places: usize) {
    let mut ledgers = Ledgers::new();
    let mut draw = |size: usize| Reading::new(ledgers.full(used[size]), places);
    let totals: [Medians; SIZES] = medians_of_kinds(&mut draw, true, Reading::totals_by_proved, Reading::totals_by_reference);
    let finds: [Medians; SIZES] = medians_of_kinds(&mut draw, true, Reading::find_by_proved, Reading::find_by_reference);
    for (call, sizes) in [("intake_totals", totals), ("intake_find", finds)] {
        for (used, medians) in used.iter().zip(&sizes) {
            report(&format!("{call}, {used} entries of {places} places"), medians);
        }
    }
}

/// Times Totals of full ledgers that are made to hurt, and of ones that are not sound.
fn report_hurt_totals() {
    let mut ledgers = Ledgers::new();
    let mut report_totals = |what: &str, draw: fn(&mut Ledgers, usize) -> Vec<Entry>| {
        let draw = || Reading::new(draw(&mut ledgers, MOST_ENTRIES), MOST_ENTRIES);
        let medians = medians(draw, true, Reading::totals_by_proved, Reading::totals_by_reference);
        report(&format!("intake_totals, {MOST_ENTRIES} entries, {what}"), &medians);
    };
    report_totals("refused by 105, the last with a key of another", Ledgers::with_a_repeated_key);
    report_totals("keys in one bucket", Ledgers::in_one_bucket);
}

/// Times the calls of the C interface that are lent a run.
fn report_ledger() {
    report_bookings();
    report_readings(USED_AND_READ, MOST_ENTRIES);
    report_readings([100, 400], SMALL_PLACES);
    report_hurt_totals();
}

/// Times lines that are written, of IDs of several lengths, lines that are read, and whole calls on ledgers.
fn report_disputes() {
    let mut random = Random::new(3);
    for digits in [5, 10, 15] {
        let medians = medians(|| Lines::new(&mut random, digits), true, Lines::by_proved, Lines::by_reference);
        report(&format!("{MOST_ENTRIES} lines of disputes written, IDs of up to {digits} digits"), &medians);
    }
    let medians_of_read = medians(|| Written::new(&mut random), true, Written::by_proved, Written::by_reference);
    report(&format!("{MOST_ENTRIES} lines of disputes read"), &medians_of_read);
    let mut ledgers = Ledgers::new();
    let draw = |size: usize| Asked::new(&mut ledgers, USED_AND_READ[size]);
    let calls: [Medians; 4] = medians_of_kinds(draw, true, Asked::by_proved, Asked::by_reference);
    for (used, medians) in USED_AND_READ.iter().zip(&calls) {
        report(&format!("intake_dispute, {used} entries"), medians);
    }
}

fn main() {
    let arguments: Vec<String> = std::env::args().skip(1).collect();
    let arguments: Vec<&str> = arguments.iter().map(String::as_str).collect();
    match arguments[..] {
        [] => {
            report_checks();
            report_hurt();
            report_ledger();
            report_disputes();
        }
        ["ledger"] => report_ledger(),
        ["disputes"] => report_disputes(),
        ["builds", before, after] => builds::report_checks(before, after),
        ["profile", side, calls] => profile::profile(side, calls.parse().expect("N is a number")),
        _ => panic!("usage: bench [ledger | disputes | builds BEFORE AFTER | profile SIDE N]"),
    }
}
