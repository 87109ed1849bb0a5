//! One test for each number that refuses a call, but 6, whose tests are in
//! conditional_fields.rs.

mod common;

use common::*;
use reference::booking::book;
use reference::check::check;
use reference::check::Refusal;
use reference::ledger::{find, totals, Entry};

fn changed(line: usize, number: usize, field: &str) -> (u32, u32) {
    checked(&with_field(every_type(), line, number, field))
}

#[test]
fn passes() {
    assert_eq!(checked(&every_type()), (0, 0));
    assert_eq!(checked(&january()), (0, 0));
    let with_returns = every_type().join("\r\n");
    assert_eq!(check(RETAILER, DISTRIBUTORS, with_returns.as_bytes()), (0, 0));
}

#[test]
fn test_2_format() {
    assert_eq!(check(RETAILER, DISTRIBUTORS, b""), (2, 1));
    assert_eq!(check(RETAILER, DISTRIBUTORS, b"\n"), (2, 1));
    assert_eq!(changed(4, 3, "du"), (2, 4));
    assert_eq!(changed(4, 9, "\t"), (2, 4));
    assert_eq!(changed(4, 9, "A,B"), (2, 4));
    let mut ends_with_return = text(&every_type());
    ends_with_return.pop();
    ends_with_return.push(b'\r');
    assert_eq!(check(RETAILER, DISTRIBUTORS, &ends_with_return), (2, 12));
    let mut empty_line = every_type();
    empty_line.insert(6, String::new());
    assert_eq!(checked(&empty_line), (2, 7));
}

#[test]
fn test_3_data_type() {
    assert_eq!(changed(1, 9, "1A"), (3, 1));
    assert_eq!(changed(7, 17, "12345678"), (3, 7));
    assert_eq!(changed(7, 17, "-1234567.123456789012"), (0, 0));
    assert_eq!(changed(2, 16, "-202"), (0, 0));
    assert_eq!(changed(5, 12, "20240101240000"), (3, 5));
    assert_eq!(changed(2, 10, "ABC"), (3, 2));
    assert_eq!(changed(2, 10, "ABCD"), (0, 0));
}

#[test]
fn test_4_sequence() {
    let mut lines = every_type();
    lines.swap(3, 4);
    assert_eq!(checked(&lines), (4, 5));
    assert_eq!(checked(&every_type()[1..]), (4, 1));
    assert_eq!(checked(&every_type()[..11]), (4, 11));
}

#[test]
fn test_5_mandatory_fields() {
    assert_eq!(changed(1, 2, "1"), (5, 1));
    assert_eq!(changed(2, 4, ""), (5, 2));
    assert_eq!(changed(12, 5, ""), (5, 12));
    assert_eq!(changed(1, 8, ""), (0, 0));
}

/// An amount that is left out is answered as 0 is where it isn't mandatory, and
/// by 5 where it is. A blank of spaces misses its type.
#[test]
fn amounts_left_out() {
    for (line, number) in [(3, 9), (4, 10), (4, 11), (4, 13), (4, 15), (5, 13), (5, 14), (11, 8)] {
        for field in ["", "0", "-0"] {
            assert_eq!(changed(line, number, field), (0, 0));
        }
        for field in [" ", "   "] {
            assert_eq!(changed(line, number, field), (3, line as u32));
        }
    }
    for (line, number) in [(2, 12), (2, 14), (3, 12), (3, 14), (4, 16), (7, 17), (7, 18), (11, 10)]
    {
        assert_eq!(changed(line, number, ""), (5, line as u32));
        assert_eq!(changed(line, number, " "), (3, line as u32));
    }
}

#[test]
fn test_7_codes() {
    assert_eq!(changed(1, 6, "XX"), (7, 1));
    assert_eq!(changed(1, 6, "NG"), (7, 2));
    assert_eq!(changed(4, 17, "GJ"), (7, 4));
    assert_eq!(changed(6, 7, "X"), (7, 6));
    assert_eq!(changed(7, 19, "y"), (7, 7));
    assert_eq!(changed(11, 11, "1"), (7, 11));
    assert_eq!(changed(3, 11, "Q"), (0, 0));
}

#[test]
fn test_9_record_ids() {
    assert_eq!(changed(11, 1, "0007"), (9, 11));
    assert_eq!(changed(5, 1, "0"), (0, 0));
}

#[test]
fn test_10_parent_ids() {
    assert_eq!(changed(9, 2, "3"), (10, 9));
    assert_eq!(changed(12, 2, "2"), (10, 12));
    assert_eq!(changed(12, 2, "01"), (0, 0));
}

#[test]
fn test_11_retailer() {
    assert_eq!(changed(1, 4, "999999998"), (11, 1));
}

#[test]
fn test_12_sender() {
    assert_eq!(changed(1, 5, "0041"), (12, 1));
    assert_eq!(check(RETAILER, b"00410040", &text(&every_type())), (0, 0));
    assert_eq!(check(RETAILER, b"00004000", &text(&every_type())), (12, 1));
}

#[test]
fn test_14_dates() {
    assert_eq!(changed(2, 5, "20240301"), (14, 2));
    assert_eq!(changed(7, 6, "20231231"), (14, 7));
    assert_eq!(changed(7, 6, "20240101"), (0, 0));
}

#[test]
fn test_17_cancel_indicator() {
    assert_eq!(changed(10, 7, "Y"), (17, 10));
}

#[test]
fn test_18_overlap() {
    assert_eq!(changed(8, 5, "20240131"), (18, 8));
    let outside = with_field(every_type(), 8, 5, "20240131");
    assert_eq!(checked(&with_field(outside.clone(), 2, 5, "20240102")), (0, 0));
    assert_eq!(checked(&with_field(outside, 2, 5, "")), (0, 0));
}

#[test]
fn tests_29_to_34_totals() {
    assert_eq!(changed(2, 12, "50.4999"), (29, 2));
    assert_eq!(changed(2, 14, "-120"), (30, 2));
    assert_eq!(changed(8, 12, "0.6"), (31, 8));
    assert_eq!(changed(3, 14, "100.01"), (32, 3));
    assert_eq!(changed(12, 4, "11"), (33, 12));
    assert_eq!(changed(12, 4, "-12"), (33, 12));
    assert_eq!(changed(12, 5, "119.99"), (34, 12));
}

#[test]
fn test_38_site_of_the_parent() {
    assert_eq!(changed(5, 4, "0020000000002"), (38, 5));
    assert_eq!(changed(3, 4, "0020000000002"), (38, 3));
}

#[test]
fn number_103_limits() {
    assert_eq!(check(RETAILER, DISTRIBUTORS, &[b'\n'; 4_096]), (2, 1));
    assert_eq!(check(RETAILER, DISTRIBUTORS, &[b'\n'; 4_097]), (103, 0));
    assert_eq!(check(RETAILER, DISTRIBUTORS, &vec![b'A'; 1_048_576]), (2, 1));
    assert_eq!(check(RETAILER, DISTRIBUTORS, &vec![b'A'; 1_048_577]), (103, 0));
}

#[test]
fn number_104_settings() {
    let file = text(&every_type());
    assert_eq!(check(1_000_000_000, DISTRIBUTORS, &file), (104, 0));
    assert_eq!(check(RETAILER, b"", &file), (104, 0));
    assert_eq!(check(RETAILER, b"00400", &file), (104, 0));
    assert_eq!(check(RETAILER, b"004A", &file), (104, 0));
    assert_eq!(check(RETAILER, &b"0040".repeat(32), &file), (0, 0));
    assert_eq!(check(RETAILER, &b"0040".repeat(33), &file), (104, 0));
}

/// The rejected file leaves no trace: the same one is booked afterwards.
#[test]
fn test_8_file_sent_before() {
    let mut desk = Desk::new(64);
    assert_eq!(desk.book(&with_field(january(), 6, 5, "1")), refused(34, 6));
    assert_eq!(desk.book(&january()), booked(2, 0));
    assert_eq!(desk.book(&january()), refused(8, 1));
}

#[test]
fn test_39_cancel_reference() {
    let mut desk = Desk::new(64);
    desk.book(&january());
    let cancel = || rebill(10, "-100", "-10");
    assert_eq!(desk.book(&with_field(cancel(), 3, 8, "1")), refused(39, 3));
    assert_eq!(desk.book(&with_field(cancel(), 3, 8, "12")), refused(39, 3));
    assert_eq!(desk.book(&with_field(cancel(), 3, 6, "20240130")), refused(39, 3));
    assert_eq!(desk.book(&with_field(cancel(), 3, 8, "0003")), booked(3, 0));
}

/// "Checking cancels against the ledger without those earlier in the file."
#[test]
fn test_39_two_cancels_of_one_record() {
    let mut desk = Desk::new(64);
    desk.book(&january());
    let mut lines = vec![
        file_header(10),
        site_header(11, 10, ",", "-100", "-200"),
        period(12, 11, JANUARY, "Y", "3,3030", "-50", "-100"),
        usage(13, 12, JANUARY, "Y", "-50"),
        charge(14, 12, JANUARY, "Y", "-100"),
        period(15, 11, JANUARY, "Y", "3,3030", "-50", "-100"),
        usage(16, 15, JANUARY, "Y", "-50"),
        charge(17, 15, JANUARY, "Y", "-100"),
        file_trailer(18, 10, 9, "-200"),
    ];
    assert_eq!(desk.book(&lines), refused(39, 6));
    lines = with_field(lines, 3, 8, "12");
    assert_eq!(desk.book(&lines), refused(39, 3));
}

/// The usage is compared as well as the charge.
#[test]
fn test_40_cancelled_values() {
    let mut desk = Desk::new(64);
    desk.book(&january());
    let mut lines = rebill(10, "-100", "-10");
    lines = with_field(lines, 2, 12, "1");
    lines = with_field(lines, 3, 12, "-49");
    lines = with_field(lines, 4, 16, "-49");
    assert_eq!(desk.book(&lines), refused(40, 3));
}

#[test]
fn test_40_one_time_charge() {
    let mut desk = Desk::new(64);
    desk.book(&one_time_charge());
    let cancel = |amount: &str| {
        vec![
            file_header(70),
            site_header(71, 70, ",", "0", amount),
            one_time(72, 71, "Y", "62,3070", amount),
            file_trailer(73, 70, 4, amount),
        ]
    };
    assert_eq!(desk.book(&cancel("-24.99")), refused(40, 3));
    assert_eq!(desk.book(&cancel("-25")), booked(2, 0));
}

#[test]
fn number_102_stored_ids() {
    let mut desk = Desk::new(64);
    desk.book(&january());
    assert_eq!(desk.book(&with_field(one_time_charge(), 3, 1, "3")), refused(102, 0));
    assert_eq!(desk.book(&with_field(one_time_charge(), 3, 1, "1")), refused(102, 0));
    assert_eq!(desk.book(&with_field(one_time_charge(), 3, 1, "2")), booked(2, 0));
}

#[test]
fn number_101_no_room() {
    let mut desk = Desk::new(1);
    assert_eq!(desk.book(&january()), refused(101, 0));
    assert_eq!(Desk::new(0).book(&january()), refused(101, 0));
}

/// "104, 105 (ledger not sound), 103".
#[test]
fn number_105_unsound_ledger() {
    let mut run = vec![Entry::default(); 4];
    let answer = book(RETAILER, DISTRIBUTORS, &vec![b'A'; 1_048_577], &mut run, 1);
    assert_eq!(answer, refused(105, 0));
    assert_eq!(book(RETAILER, b"", b"", &mut run, 1), refused(104, 0));
    assert_eq!(book(RETAILER, DISTRIBUTORS, &vec![b'A'; 1_048_577], &mut run, 0), refused(103, 0));
    assert_eq!(totals(&run, 5), Err(Refusal { number: 105, line: 0 }));
    let mut long = vec![Entry::default(); 8_193];
    assert_eq!(book(RETAILER, DISTRIBUTORS, b"", &mut long, 0), refused(105, 0));
}

#[test]
fn number_106_no_site_or_day() {
    let run = [];
    assert_eq!(find(&run, 0, 10_000_000_000_000, 0), Err(Refusal { number: 106, line: 0 }));
    assert_eq!(find(&run, 0, 0, 36_525), Err(Refusal { number: 106, line: 0 }));
    assert_eq!(find(&run, 1, 0, 36_525), Err(Refusal { number: 105, line: 0 }));
    assert_eq!(find(&run, 0, 9_999_999_999_999, 36_524), Ok(None));
}
