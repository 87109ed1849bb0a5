//! Disputes: lines laid out as Table 4-14 by hand, each refusal in its place, and what is read of lines.

use reference::check::Settings;
use reference::disputes::{dispute, read, Fields, Supplied};
use reference::ledger::{kind, state, Entry};

const SETTINGS: Settings = Settings { retailer: 7, distributors: b"0040" };

const SUPPLIED: Supplied =
    Supplied { transaction: b"0012", created: b"20240301120000", file: b"60" };

/// A file's entry, a held period, a held one-time charge and a live one.
fn ledger() -> [Entry; 4] {
    let file =
        Entry { sender: 40, commodity: 1, kind: kind::FILE, record_id: 60, ..Entry::default() };
    let period =
        Entry { kind: kind::PERIOD, record_id: 62, site: 7, end: 30, state: state::HELD, ..file };
    let held =
        Entry { kind: kind::ONE_TIME_CHARGE, record_id: 63, site: 8, state: state::HELD, ..file };
    let live = Entry { record_id: 64, state: state::LIVE, ..held };
    [file, period, held, live]
}

fn written(place: usize, supplied: Supplied, room: usize) -> Result<String, u32> {
    let mut out = vec![b'?'; room];
    let answer = dispute(SETTINGS, &ledger(), 4, place, supplied, &mut out);
    match answer {
        Ok(length) => assert!(out[length..].iter().all(|&byte| byte == b'?')),
        Err(_) => assert!(out.iter().all(|&byte| byte == b'?')),
    }
    answer.map(|length| String::from_utf8_lossy(&out[..length]).into_owned())
}

#[test]
fn a_period_has_field_8_and_a_one_time_charge_field_10() {
    let period = "TBD,12,000000007,0040,20240301120000,60,0000000000007,62,,,7004\n";
    assert_eq!(written(1, SUPPLIED, 200).as_deref(), Ok(period));
    let charge = "TBD,12,000000007,0040,20240301120000,60,0000000000008,,,63,7004\n";
    assert_eq!(written(2, SUPPLIED, 200).as_deref(), Ok(charge));
    assert_eq!(written(1, SUPPLIED, period.len()).as_deref(), Ok(period));
    assert_eq!(written(1, SUPPLIED, period.len() - 1), Err(109));
}

#[test]
fn refusals_come_in_their_order() {
    let unfit = Supplied { transaction: b"-1", ..SUPPLIED };
    let mut out = [0; 0];
    let refused = |settings, used, place, supplied, out: &mut [u8]| {
        dispute(settings, &ledger(), used, place, supplied, out)
    };
    let no_settings = Settings { retailer: 1_000_000_000, ..SETTINGS };
    assert_eq!(refused(no_settings, 5, 0, unfit, &mut out), Err(104));
    assert_eq!(refused(SETTINGS, 5, 0, unfit, &mut out), Err(105));
    assert_eq!(refused(SETTINGS, 4, 0, unfit, &mut out), Err(3));
    assert_eq!(refused(SETTINGS, 4, 0, SUPPLIED, &mut out), Err(108));
    assert_eq!(refused(SETTINGS, 2, 2, SUPPLIED, &mut out), Err(108));
    assert_eq!(refused(SETTINGS, 4, 3, SUPPLIED, &mut out), Err(108));
    assert_eq!(refused(SETTINGS, 4, 1, SUPPLIED, &mut out), Err(109));
    for supplied in [
        Supplied { created: b"", ..SUPPLIED },
        Supplied { created: b"20240230120000", ..SUPPLIED },
        Supplied { file: b"", ..SUPPLIED },
        Supplied { file: b"1234567890123456", ..SUPPLIED },
    ] {
        assert_eq!(written(1, supplied, 200), Err(3));
    }
}

#[test]
fn a_line_written_is_read_as_its_own_fields() {
    let line = written(1, SUPPLIED, 200).expect("the place is that of a held entry");
    let numbers = [
        Some(12),
        Some(7),
        Some(40),
        Some(20_240_301_120_000),
        Some(60),
        Some(7),
        Some(62),
        None,
        None,
    ];
    let fields = Fields { numbers, code: Some(7_004) };
    let content = line.trim_end();
    for end in ["\n", "\r\n", ""] {
        assert_eq!(read(format!("{content}{end}").as_bytes()), Ok(fields));
    }
    for end in ["\r", "\n\n", "\n\r\n", "\r\r\n", ",\n", "\n "] {
        assert_eq!(read(format!("{content}{end}").as_bytes()), Err(2));
    }
    assert_eq!(read(b""), Err(2));
    assert_eq!(read(content.replace("TBD", "TBR").as_bytes()), Err(2));
}

#[test]
fn test_3_asks_of_filled_fields_alone() {
    assert_eq!(read(b"TBD,,,,,,,,,,"), Ok(Fields::default()));
    assert_eq!(read(b"TBD,,,,,,,,,,-12").map(|fields| fields.code), Ok(Some(-12)));
    for line in [
        "TBD,-1,,,,,,,,,",
        "TBD,,1,,,,,,,,",
        "TBD,,,40,,,,,,,",
        "TBD,,,,20240301,,,,,,",
        "TBD,,,,,,,,,,70040",
        "TBD,,,,,,,,,,7.0",
    ] {
        assert_eq!(read(line.as_bytes()), Err(3), "{line}");
    }
}
