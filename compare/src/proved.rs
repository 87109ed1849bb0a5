//! The proved functions, as the static libraries export them, behind safe functions.

use reference::booking::Answer;
use reference::check::{Refusal, Settings};
use reference::disputes::{Dispute, Fields, Supplied};
use reference::fields::Amount;
use reference::ledger::{Entry, StateTotals, Totals};
use std::mem::{offset_of, size_of, size_of_val};

mod exported {
    use reference::ledger::Entry;

    /// `struct intake_booking` of host/intake.h.
    #[derive(Debug)]
    #[repr(C)]
    pub struct Booking {
        pub number: u64,
        pub line: u64,
        pub added: u64,
        pub held: u64,
    }

    /// `struct intake_sums`.
    #[derive(Debug)]
    #[repr(C)]
    pub struct Sums {
        pub number: u64,
        pub live_charge: i64,
        pub live_kwh: i64,
        pub live_gj: i64,
        pub held_charge: i64,
        pub held_kwh: i64,
        pub held_gj: i64,
    }

    /// `struct intake_place`.
    #[derive(Debug)]
    #[repr(C)]
    pub struct Place {
        pub number: u64,
        pub found: u64,
        pub place: u64,
    }

    /// `struct intake_reading`.
    #[derive(Debug)]
    #[repr(C)]
    pub struct Reading {
        pub number: u64,
        pub filled: u64,
        pub units: i64,
    }

    /// `struct intake_field`, and `struct intake_signed_field` with another number.
    #[derive(Debug)]
    #[repr(C)]
    pub struct Field<N> {
        pub filled: u64,
        pub value: N,
    }

    /// `struct intake_dispute_fields`: fields 2 to 10 and the code.
    #[derive(Debug)]
    #[repr(C)]
    pub struct Dispute {
        pub number: u64,
        pub fields: [Field<u64>; 9],
        pub code: Field<i64>,
    }

    extern "C" {
        pub fn intake_day(date: *const u8, date_len: usize) -> u64;
        pub fn intake_amount(field: *const u8, field_len: usize, precision: u64, scale: u64) -> Reading;
        pub fn intake_code(test: u64) -> u64;
        pub fn intake_check(retailer: u64, distributors: *const u8, distributors_len: usize, file: *const u8, file_len: usize) -> u64;
        pub fn intake_book(
            retailer: u64,
            distributors: *const u8,
            distributors_len: usize,
            file: *const u8,
            file_len: usize,
            run: *mut Entry,
            places: usize,
            used: usize,
        ) -> Booking;
        pub fn intake_totals(run: *const Entry, places: usize, used: usize) -> Sums;
        pub fn intake_find(run: *const Entry, places: usize, used: usize, site: u64, day: u64) -> Place;
        pub fn intake_dispute(
            retailer: u64,
            distributors: *const u8,
            distributors_len: usize,
            run: *const Entry,
            places: usize,
            used: usize,
            place: usize,
            transaction: *const u8,
            transaction_len: usize,
            created: *const u8,
            created_len: usize,
            file: *const u8,
            file_len: usize,
            out: *mut u8,
            out_len: usize,
        ) -> u64;
        pub fn intake_read_dispute(line: *const u8, line_len: usize) -> Dispute;
        pub fn comparison_date(day: u64, out: *mut u8, out_len: usize) -> u64;
        pub fn comparison_dispute(
            numbers: *const u64,
            numbers_len: usize,
            created: *const u8,
            created_len: usize,
            out: *mut u8,
            out_len: usize,
        ) -> u64;
        pub fn comparison_digits(field: *const u8, field_len: usize, count: u64, value: *mut u64) -> u64;
        pub fn comparison_date_time(field: *const u8, field_len: usize, day: *mut u64, second: *mut u64) -> u64;
        pub fn comparison_shares_day(start: u64, end: u64, other_start: u64, other_end: u64) -> u64;
    }
}

/// Where the fields of an entry stand, in the order of `struct intake_entry`.
const OFFSETS: [usize; 11] = [
    offset_of!(Entry, sender),
    offset_of!(Entry, commodity),
    offset_of!(Entry, kind),
    offset_of!(Entry, record_id),
    offset_of!(Entry, site),
    offset_of!(Entry, start),
    offset_of!(Entry, end),
    offset_of!(Entry, charge),
    offset_of!(Entry, usage),
    offset_of!(Entry, state),
    offset_of!(Entry, cancelled_id),
];

/// The entries of the reference implementation are those of host/intake.h: eleven words, one after the other.
const _: () = {
    assert!(size_of::<Entry>() == 8 * OFFSETS.len());
    let mut field = 0;
    while field < OFFSETS.len() {
        assert!(OFFSETS[field] == 8 * field);
        field += 1;
    }
};

/// The bytes of a run, which has no others than those of its fields.
pub fn bytes_of(run: &[Entry]) -> &[u8] {
    unsafe { std::slice::from_raw_parts(run.as_ptr().cast(), size_of_val(run)) }
}

/// An answer in one word: the refusal's number, or the value.
fn unpacked(answer: u64) -> Result<u32, u32> {
    match (answer >> 32) as u32 {
        0 => Ok(answer as u32),
        number => Err(number),
    }
}

pub fn day(date: &[u8]) -> Result<u32, u32> {
    unpacked(unsafe { exported::intake_day(date.as_ptr(), date.len()) })
}

pub fn code(test: u64) -> Result<u32, u32> {
    unpacked(unsafe { exported::intake_code(test) })
}

/// The number and line of Check.
pub fn check(retailer: u64, distributors: &[u8], file: &[u8]) -> (u32, u32) {
    let answer = unsafe { exported::intake_check(retailer, distributors.as_ptr(), distributors.len(), file.as_ptr(), file.len()) };
    ((answer >> 32) as u32, answer as u32)
}

/// What a field of Number(precision, scale) says. What an answer doesn't have is 0.
pub fn amount(field: &[u8], precision: u64, scale: u64) -> Amount {
    match unsafe { exported::intake_amount(field.as_ptr(), field.len(), precision, scale) } {
        exported::Reading { number: 0, filled: 0, units: 0 } => Amount::Missing,
        exported::Reading { number: 0, filled: 1, units } => Amount::Value(units),
        exported::Reading { number: 3, filled: 1, units: 0 } => Amount::Misses,
        other => panic!("the reading of an amount answers {other:?}"),
    }
}

/// The value of just `count` digits, or of 1 to 15 where `count` is 0.
pub fn digits(field: &[u8], count: u64) -> Option<u64> {
    const UNTOUCHED: u64 = 0x5555_5555_5555_5555;
    let mut value = UNTOUCHED;
    match unsafe { exported::comparison_digits(field.as_ptr(), field.len(), count, &mut value) } {
        0 => Some(value),
        number => {
            assert_eq!((number, value), (3, UNTOUCHED));
            None
        }
    }
}

pub fn date_time(field: &[u8]) -> Option<(u64, u64)> {
    const UNTOUCHED: (u64, u64) = (u64::MAX, u64::MAX);
    let (mut day, mut second) = UNTOUCHED;
    match unsafe { exported::comparison_date_time(field.as_ptr(), field.len(), &mut day, &mut second) } {
        0 => Some((day, second)),
        number => {
            assert_eq!((number, day, second), (3, UNTOUCHED.0, UNTOUCHED.1));
            None
        }
    }
}

pub fn shares_day(one: (u64, u64), other: (u64, u64)) -> bool {
    unsafe { exported::comparison_shares_day(one.0, one.1, other.0, other.1) == 1 }
}

/// Book of a file with settings, into the run that the first so many of the entries are, so many of them used. It may touch no
/// entry past the run, where a test has some to see that.
pub type Book = fn(entries: &mut [Entry], places: usize, used: usize, settings: Settings, file: &[u8]) -> Answer;

pub fn book(entries: &mut [Entry], places: usize, used: usize, settings: Settings, file: &[u8]) -> Answer {
    assert!(places <= entries.len());
    let Settings { retailer, distributors } = settings;
    let (distributors, distributors_len) = (distributors.as_ptr(), distributors.len());
    book_answer(unsafe {
        exported::intake_book(retailer, distributors, distributors_len, file.as_ptr(), file.len(), entries.as_mut_ptr(), places, used)
    })
}

/// The answer of Book. What an acceptance or a refusal doesn't have is 0.
fn book_answer(answer: exported::Booking) -> Answer {
    match answer {
        exported::Booking { number: 0, line: 0, added, held } => Answer::Booked { added: added as usize, held: held as usize },
        exported::Booking { number, line, added: 0, held: 0 } if number != 0 => {
            Answer::Refused(Refusal { number: narrow(number), line: narrow(line) })
        }
        other => panic!("Book answers {other:?}"),
    }
}

fn narrow(number: u64) -> u32 {
    number.try_into().expect("numbers and lines have 32 bits")
}

/// Totals of the run that the first so many entries are. Where there is a refusal the sums are 0.
pub fn totals(entries: &[Entry], places: usize, used: usize) -> Result<Totals, u32> {
    assert!(places <= entries.len());
    let sums = unsafe { exported::intake_totals(entries.as_ptr(), places, used) };
    let live = StateTotals { charge: sums.live_charge, usage_kwh: sums.live_kwh, usage_gj: sums.live_gj };
    let held = StateTotals { charge: sums.held_charge, usage_kwh: sums.held_kwh, usage_gj: sums.held_gj };
    let totals = Totals { live, held };
    match sums.number {
        0 => Ok(totals),
        number => {
            assert!(totals == Totals::default(), "Totals answers {sums:?}");
            Err(narrow(number))
        }
    }
}

/// Find in the run that the first so many entries are. The place is 0 where none is found.
pub fn find(entries: &[Entry], places: usize, used: usize, site: u64, day: u64) -> Result<Option<usize>, u32> {
    assert!(places <= entries.len());
    match unsafe { exported::intake_find(entries.as_ptr(), places, used, site, day) } {
        exported::Place { number: 0, found: 1, place } => Ok(Some(place as usize)),
        exported::Place { number: 0, found: 0, place: 0 } => Ok(None),
        exported::Place { number, found: 0, place: 0 } => Err(narrow(number)),
        other => panic!("Find answers {other:?}"),
    }
}

/// The length of the dispute that is written of the entry at a place.
pub fn dispute(settings: Settings, run: &[Entry], used: usize, place: usize, supplied: Supplied, out: &mut [u8]) -> Result<usize, u32> {
    let Settings { retailer, distributors } = settings;
    let Supplied { transaction, created, file } = supplied;
    let answer = unsafe {
        exported::intake_dispute(
            retailer,
            distributors.as_ptr(),
            distributors.len(),
            run.as_ptr(),
            run.len(),
            used,
            place,
            transaction.as_ptr(),
            transaction.len(),
            created.as_ptr(),
            created.len(),
            file.as_ptr(),
            file.len(),
            out.as_mut_ptr(),
            out.len(),
        )
    };
    let number = (answer >> 32) as u32;
    assert!(number == 0 || answer as u32 == 0, "a refused dispute answers {answer:x}");
    unpacked(answer).map(|length| length as usize)
}

/// Writes the line of a dispute at the start of some bytes, and answers its length; 0 where there is no room.
pub fn dispute_line(dispute: &Dispute, out: &mut [u8]) -> usize {
    let &Dispute { transaction, retailer, distributor, created, file, site, once, id } = dispute;
    let numbers = [transaction, retailer, distributor, file, site, u64::from(once), id];
    let answer =
        unsafe { exported::comparison_dispute(numbers.as_ptr(), numbers.len(), created.as_ptr(), created.len(), out.as_mut_ptr(), out.len()) };
    answer as usize
}

/// What is read of a dispute. A refusal has no fields, and an empty field the value 0.
pub fn read_dispute(line: &[u8]) -> Result<Fields, u32> {
    let answer = unsafe { exported::intake_read_dispute(line.as_ptr(), line.len()) };
    let numbers = answer.fields.map(told);
    let code = told(answer.code);
    match answer.number {
        0 => Ok(Fields { numbers, code }),
        number => {
            assert!((numbers, code) == ([None; 9], None), "a refused line is read with values");
            Err(narrow(number))
        }
    }
}

/// The number of a field that is filled.
fn told<N: Default + PartialEq>(field: exported::Field<N>) -> Option<N> {
    match field.filled {
        1 => Some(field.value),
        filled => {
            assert!(filled == 0 && field.value == N::default(), "an empty field has a value");
            None
        }
    }
}

/// The date of a day, eight digits; the rest of some bytes stays.
pub fn date(day: u32) -> Option<String> {
    let mut out = [b'?'; 9];
    match unsafe { exported::comparison_date(u64::from(day), out.as_mut_ptr(), out.len()) } {
        0 => {
            assert_eq!(out[8], b'?');
            Some(String::from_utf8_lossy(&out[..8]).into_owned())
        }
        number => {
            assert_eq!((number, out), (106, [b'?'; 9]));
            None
        }
    }
}
