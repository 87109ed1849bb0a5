//! Test 6: "It fails exactly where such a condition holds and the field is
//! empty." (document 02, 2)

mod common;

use common::*;
use reference::conditions::CONDITIONAL_FIELDS;

/// A file in which every condition of test 6 holds in one record and doesn't in
/// another, and in which fields that no condition asks for are empty.
fn every_condition() -> Vec<String> {
    let march = "20240301,20240331";
    vec![
        file_header(1),
        site_header(2, 1, "20240301,20240430", "20", "45"),
        period(3, 2, JANUARY, "Y", "900,3030", "-10", "-20"),
        reading(4, 3, JANUARY, "Y", "M1,6,100,A,110,A,1", "-10"),
        ratchet(5, 3, JANUARY, "Y", "4100"),
        charge(6, 3, JANUARY, "Y", "-20"),
        with_status(period(7, 2, march, "N", ",", "20", "40"), "I"),
        reading(8, 7, march, "N", "M1,,,,,,", "0"),
        usage(9, 7, march, "N", "20"),
        demand(10, 7, march, "N"),
        charge(11, 7, march, "N", "40"),
        period(12, 2, "20240401,20240430", "N", ",", "10", "0"),
        reading(13, 12, "20240401,20240430", "N", "M1,6,110,A,120,A,1", "10"),
        usage(14, 12, "20240401,20240430", "N", "0"),
        ratchet(15, 12, "20240401,20240430", "N", "4200"),
        site_header(16, 1, ",", "20", "45"),
        one_time(17, 16, "N", ",", "30"),
        one_time(18, 16, "Y", "901,3070", "-5"),
        file_trailer(19, 1, 19, "45"),
    ]
}

/// A usage record of a cumulative meter: "readings" is Meter Number to Billing
/// Multiplier.
fn reading(
    id: u64,
    parent: u64,
    days: &str,
    indicator: &str,
    readings: &str,
    amount: &str,
) -> String {
    format!("{id},{parent},DU,{SITE},{days},{indicator},C,{readings},{amount},KWH")
}

fn ratchet(id: u64, parent: u64, days: &str, indicator: &str, code: &str) -> String {
    format!("{id},{parent},DD,{SITE},{days},{indicator},{code},5,KW,,20231215103000,12,,")
}

/// A tariff bill period with another Site Status Code.
fn with_status(period: String, status: &str) -> String {
    let lines = with_field(vec![period], 1, 11, status);
    lines.into_iter().next().unwrap()
}

fn conditional(line: usize, number: usize, field: &str) -> (u32, u32) {
    checked(&with_field(every_condition(), line, number, field))
}

/// Each row of the table: left out where its condition holds, and filled and
/// left out where it doesn't.
#[test]
fn every_row_both_ways() {
    assert_eq!(checked(&every_condition()), (0, 0));
    let asked_for = [
        (3, vec![8, 9]),
        (4, (9..=15).collect()),
        (5, vec![12, 13]),
        (8, vec![9]),
        (13, (9..=15).collect()),
        (15, vec![12, 13]),
        (18, vec![7, 8]),
    ];
    let unasked = [
        (7, vec![(8, "900"), (9, "3030")]),
        (8, vec![(10, "6"), (11, "100"), (12, "A"), (13, "110"), (14, "A"), (15, "1")]),
        (9, vec![(9, "M1"), (10, "6"), (11, "0"), (12, "A"), (13, "0"), (14, "E"), (15, "1")]),
        (14, vec![(9, "M1"), (10, "6"), (11, "0"), (12, "A"), (13, "0"), (14, "E"), (15, "1")]),
        (10, vec![(12, "20231215103000"), (13, "12")]),
        (17, vec![(7, "901"), (8, "3070")]),
    ];
    let of_line = |line: usize| every_condition()[line - 1].split(',').nth(2).unwrap().to_owned();
    let mut rows: Vec<(String, usize)> = Vec::new();
    for (line, numbers) in asked_for {
        for number in numbers {
            assert_eq!(conditional(line, number, ""), (6, line as u32), "{line}, {number}");
            rows.push((of_line(line), number));
        }
    }
    let mut unmet: Vec<(String, usize)> = Vec::new();
    for (line, fields) in unasked {
        for (number, field) in fields {
            assert_eq!(conditional(line, number, field), (0, 0), "{line}, {number}");
            assert_eq!(conditional(line, number, ""), (0, 0), "{line}, {number}");
            unmet.push((of_line(line), number));
        }
    }
    for row in CONDITIONAL_FIELDS {
        let row = (row.record_type.code().to_owned(), row.number);
        assert!(rows.contains(&row) && unmet.contains(&row), "{row:?}");
    }
}

/// A zero is a value, and fills its field. The fields whose conditions stay
/// untested may be left out.
#[test]
fn what_is_not_asked() {
    for (line, number) in [(3, 9), (4, 10), (4, 11), (4, 13), (4, 15), (5, 13), (18, 8)] {
        assert_eq!(conditional(line, number, "0"), (0, 0));
        assert_eq!(conditional(line, number, " "), (3, line as u32));
    }
    for (line, number) in [(1, 8), (1, 9), (2, 5), (2, 6), (2, 10), (2, 18)] {
        assert_eq!(conditional(line, number, ""), (0, 0));
    }
    // Metered demand and a contract, without their Meter Number, Power Factor and end date.
    for code in ["4080", "4040"] {
        assert_eq!(conditional(15, 8, code), (0, 0));
    }
}

/// "FH, SH and TH are the nearest before."
#[test]
fn nearest_period() {
    for status in ["D", "I", "e", " ", "X"] {
        assert_eq!(conditional(3, 11, status), (0, 0));
        assert_eq!(conditional(7, 11, status), (0, 0));
        assert_eq!(conditional(12, 11, status), (0, 0));
        let lines = with_field(every_condition(), 12, 11, status);
        assert_eq!(checked(&with_field(lines.clone(), 13, 13, "")), (0, 0));
        assert_eq!(checked(&with_field(lines.clone(), 4, 13, "")), (6, 4));
        assert_eq!(checked(&with_field(lines, 13, 9, "")), (6, 13));
    }
    assert_eq!(conditional(7, 11, "E"), (6, 8));
    let others = with_field(every_condition(), 3, 11, "D");
    let others = with_field(others, 12, 11, "D");
    assert_eq!(checked(&with_field(others, 7, 11, "E")), (6, 8));
}

/// A one-time charge has an indicator of its own, whatever that of the period
/// before it.
#[test]
fn one_time_charge_after_a_cancel() {
    let lines = |indicator: &str, reference: &str| {
        vec![
            file_header(1),
            site_header(2, 1, ",", "-50", "-75"),
            period(3, 2, JANUARY, "Y", "900,3030", "-50", "-100"),
            usage(4, 3, JANUARY, "Y", "-50"),
            charge(5, 3, JANUARY, "Y", "-100"),
            site_header(6, 1, ",", "-50", "-75"),
            one_time(7, 6, indicator, reference, "25"),
            file_trailer(8, 1, 8, "-75"),
        ]
    };
    assert_eq!(checked(&lines("N", ",")), (0, 0));
    assert_eq!(checked(&lines("Y", ",")), (6, 7));
    assert_eq!(checked(&lines("Y", "901,")), (6, 7));
    assert_eq!(checked(&lines("Y", ",3070")), (6, 7));
    assert_eq!(checked(&lines("Y", "901,3070")), (0, 0));
}

/// "Y" alone is Y: an indicator of another byte asks for nothing, and test 7
/// refuses it.
#[test]
fn indicator_of_another_byte() {
    for byte in ["y", "X", "n", " ", "1"] {
        let period = with_field(every_condition(), 3, 8, "");
        assert_eq!(checked(&with_field(period, 3, 7, byte)), (7, 3));
        let charge = with_field(every_condition(), 18, 7, "");
        assert_eq!(checked(&with_field(charge, 18, 6, byte)), (7, 18));
    }
}

/// Four Demand Type Codes are ratchets, by value, and one Meter Type Code is
/// that of cumulative meters.
#[test]
fn other_codes() {
    for code in ["4100", "4110", "4120", "4200"] {
        assert_eq!(conditional(10, 8, code), (6, 10));
    }
    for code in ["4000", "4080", "4090", "4130", "4190", "4210", "-4100", "410", "0"] {
        let demand = with_field(every_condition(), 5, 12, "");
        let demand = with_field(demand, 5, 13, "");
        assert_eq!(checked(&with_field(demand, 5, 8, code)), (0, 0));
    }
    for code in ["I", "U", "T", "S", "c", " "] {
        let usage = with_field(every_condition(), 4, 9, "");
        let usage = with_field(usage, 4, 13, "");
        assert_eq!(checked(&with_field(usage, 4, 8, code)), (0, 0));
    }
}

/// "6, at the failing record's line, after 5 and before 7."
#[test]
fn in_its_order() {
    let two = with_field(every_condition(), 18, 8, "");
    assert_eq!(checked(&with_field(two, 13, 12, "")), (6, 13));
    let before_7 = with_field(every_condition(), 18, 7, "");
    assert_eq!(checked(&with_field(before_7.clone(), 1, 6, "XX")), (6, 18));
    assert_eq!(checked(&with_field(before_7, 2, 12, "7")), (6, 18));
    let after_5 = with_field(every_condition(), 3, 8, "");
    assert_eq!(checked(&with_field(after_5.clone(), 19, 5, "")), (5, 19));
    assert_eq!(checked(&with_field(after_5.clone(), 1, 2, "1")), (5, 1));
    assert_eq!(checked(&with_field(after_5.clone(), 19, 5, "x")), (3, 19));
    assert_eq!(checked(&after_5[..18]), (4, 18));
}

/// Book answers 6 before 8 and 39, and leaves the ledger as it was.
#[test]
fn in_book() {
    let mut desk = Desk::new(64);
    desk.book(&january());
    let before = desk.run.clone();
    let cancel = || rebill(10, "-100", "-10");
    assert_eq!(desk.book(&with_field(cancel(), 3, 8, "")), refused(6, 3));
    assert_eq!(desk.book(&with_field(cancel(), 3, 9, "")), refused(6, 3));
    let sent_before = with_field(with_field(cancel(), 3, 9, ""), 1, 1, "1");
    assert_eq!(desk.book(&sent_before), refused(6, 3));
    assert_eq!(desk.run, before);
    assert_eq!(desk.book(&cancel()), booked(3, 0));
}
