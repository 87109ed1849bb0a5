//! The desk examples of document 01 that read the ledger.

mod common;

use common::*;
use reference::ledger::{find, state, totals, StateTotals, Totals};

fn charges(desk: &Desk) -> (i64, i64) {
    let Totals { live, held } = totals(&desk.run, desk.used).unwrap();
    (live.charge, held.charge)
}

/// "A books January, 100.00. B cancels it and rebills 90.00: accepted 90.00,
/// live 90.00."
#[test]
fn cancel_and_rebill() {
    let mut desk = Desk::new(64);
    assert_eq!(desk.book(&january()), booked(2, 0));
    assert_eq!(charges(&desk), (10_000, 0));
    assert_eq!(desk.book(&rebill(10, "-100", "-10")), booked(3, 0));
    assert_eq!(charges(&desk), (9_000, 0));
    let accepted: i64 = desk.run[..desk.used]
        .iter()
        .filter(|entry| entry.kind == 1)
        .map(|entry| entry.charge)
        .sum();
    assert_eq!(accepted, 9_000);
    let states: Vec<u64> = desk.run[..desk.used].iter().map(|entry| entry.state).collect();
    assert_eq!(states, [0, state::CANCELLED, 0, state::CANCEL, state::LIVE]);
}

/// "A cancel of -99.99 instead gets 40."
#[test]
fn cancel_of_another_amount() {
    let mut desk = Desk::new(64);
    desk.book(&january());
    let before = desk.run.clone();
    assert_eq!(desk.book(&rebill(10, "-99.99", "-9.99")), refused(40, 3));
    assert_eq!(desk.run, before);
}

/// "B's cancel sent again under new IDs gets 39."
#[test]
fn cancel_sent_again() {
    let mut desk = Desk::new(64);
    desk.book(&january());
    desk.book(&rebill(10, "-100", "-10"));
    assert_eq!(desk.book(&rebill(40, "-100", "-10")), refused(39, 3));
}

/// "C brings 31 January to 27 February, 50.00: held; accepted 140.00 is 90.00
/// live and 50.00 held."
#[test]
fn overlap_with_the_ledger_is_held() {
    let mut desk = Desk::new(64);
    desk.book(&january());
    desk.book(&rebill(10, "-100", "-10"));
    assert_eq!(desk.book(&february()), booked(2, 1));
    let expected = Totals {
        live: StateTotals { charge: 9_000, usage_kwh: 500_000, usage_gj: 0 },
        held: StateTotals { charge: 5_000, usage_kwh: 200_000, usage_gj: 0 },
    };
    assert_eq!(totals(&desk.run, desk.used), Ok(expected));
    assert_eq!(find(&desk.run, desk.used, 20_000_000_001, 8_766 + 30), Ok(Some(4)));
    assert_eq!(find(&desk.run, desk.used, 20_000_000_001, 8_766 + 31), Ok(None));
    assert_eq!(find(&desk.run, desk.used, 20_000_000_002, 8_766), Ok(None));
}

/// "With one entry left, a file of FH and one OC gets 101; with two it is
/// booked."
#[test]
fn one_entry_left() {
    for (length, answer) in [(3, refused(101, 0)), (4, booked(2, 0))] {
        let mut desk = Desk::new(length);
        assert_eq!(desk.book(&january()), booked(2, 0));
        assert_eq!(desk.book(&one_time_charge()), answer);
    }
}

/// "Taking a rebill before the cancel that precedes it in effect": the rebill
/// stands before the cancel in the file, and is live all the same.
#[test]
fn rebill_written_before_its_cancel() {
    let mut desk = Desk::new(64);
    desk.book(&january());
    let mut lines = rebill(10, "-100", "-10");
    lines[2..8].rotate_left(3);
    assert_eq!(desk.book(&lines), booked(3, 0));
    assert_eq!(charges(&desk), (9_000, 0));
    assert_eq!(desk.run[3].state, state::CANCEL);
    assert_eq!(desk.run[4].state, state::LIVE);
}
