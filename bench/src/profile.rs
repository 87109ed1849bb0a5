//! One side called so many times on one input, for a profiler.

use crate::booking::{Booking, Bookings};
use crate::files::{Files, Ids};
use crate::ledgers::Ledgers;
use crate::reading::Reading;
use crate::{proved_check, reference_check};
use reference::ledger::MOST_ENTRIES;
use std::hint::black_box;

/// Calls one side so many times on one input.
pub fn profile(side: &str, calls: usize) {
    let file = || Files::new().many_sites(4_096, Ids::Rising);
    let one_site = || Files::new().one_site(4_096, 1_000);
    let most_charges = || Files::new().most_charges();
    let refused_by = |test| Files::new().wrong_at_the_end(test);
    let booking = || Bookings::new().periods(100, 8_000, MOST_ENTRIES);
    let reading = |entries| Reading::new(Ledgers::new().full(entries), MOST_ENTRIES);
    match side {
        "proved-check" => repeat(calls, &file(), |file| proved_check(file)),
        "reference-check" => repeat(calls, &file(), |file| reference_check(file)),
        "proved-check-of-one-site" => repeat(calls, &one_site(), |file| proved_check(file)),
        "reference-check-of-one-site" => repeat(calls, &one_site(), |file| reference_check(file)),
        "proved-check-of-most-charges" => repeat(calls, &most_charges(), |file| proved_check(file)),
        "proved-check-refused-by-2" => repeat(calls, &refused_by(2), |file| proved_check(file)),
        "proved-check-refused-by-3" => repeat(calls, &refused_by(3), |file| proved_check(file)),
        "proved-check-refused-by-30" => repeat(calls, &refused_by(30), |file| proved_check(file)),
        "proved-book" => repeat(calls, &booking(), restored(Booking::by_proved)),
        "reference-book" => repeat(calls, &booking(), restored(Booking::by_reference)),
        "proved-totals" => repeat(calls, &reading(8_000), Reading::totals_by_proved),
        "reference-totals" => repeat(calls, &reading(8_000), Reading::totals_by_reference),
        "proved-totals-of-100" => repeat(calls, &reading(100), Reading::totals_by_proved),
        "reference-totals-of-100" => repeat(calls, &reading(100), Reading::totals_by_reference),
        "proved-find" => repeat(calls, &reading(8_000), Reading::find_by_proved),
        "reference-find" => repeat(calls, &reading(8_000), Reading::find_by_reference),
        _ => panic!("no side is called {side}"),
    }
}

fn repeat<Input, Answer>(calls: usize, input: &Input, call: impl Fn(&Input) -> Answer) {
    for _ in 0..calls {
        black_box(call(black_box(input)));
    }
}

/// A call after which its input is restored.
fn restored(call: impl Fn(&Booking) -> u32) -> impl Fn(&Booking) -> u32 {
    move |booking| {
        let number = call(booking);
        booking.restore();
        number
    }
}
