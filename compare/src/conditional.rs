//! Conditional fields left out, in valid files: where their condition holds, and in each way in which it doesn't.

use crate::files::{draft_with, Comparison, LEFT_OUT_FOR_EACH};
use reference::conditions::{Condition, ConditionalField, CONDITIONAL_FIELDS};
use reference::generate::draft::Draft;
use reference::generate::random::Random;
use reference::generate::{Generator, Style, RETAILER};
use std::collections::BTreeMap;

/// Each field is left out at least so many times in each way.
const MET: u64 = 100;

/// How the condition of a field stands that is left out.
#[derive(Clone, Copy, Debug, PartialEq, Eq, PartialOrd, Ord)]
enum Way {
    /// It holds, so that 6 refuses the file.
    Holds,
    /// The Cancel Indicator is N.
    Original,
    /// The Cancel Indicator is neither Y nor N. The file passes 6, and 7 refuses it.
    OtherIndicator,
    /// The Meter Type Code isn't C; the Site Status Code is E where the condition reads it.
    OtherMeter,
    /// The Site Status Code isn't E, and the Meter Type Code is C.
    OtherStatus,
    /// Neither is.
    OtherStatusAndMeter,
    /// The Demand Type Code is no ratchet's.
    OtherDemand,
}

use Way::*;

/// The ways of a condition. In all but the first it doesn't hold.
fn ways_of(condition: Condition) -> &'static [Way] {
    match condition {
        Condition::Cancel => &[Holds, Original, OtherIndicator],
        Condition::CumulativeMeter => &[Holds, OtherMeter],
        Condition::EnergizedCumulativeMeter => &[Holds, OtherMeter, OtherStatus, OtherStatusAndMeter],
        Condition::Ratchet => &[Holds, OtherDemand],
    }
}

/// The Site Status Code of the nearest TH before a DU.
fn site_status(draft: &Draft, place: usize) -> &str {
    let header = draft.period_header(place).expect("a DU stands under a TH");
    draft.records[header].field(11)
}

/// Whether a way can be made of a record by a change of codes that leaves the file valid. No cancel is made an original, whose children
/// carry its indicator, and no site energized, whose other usage may lack readings.
fn can_be_made(draft: &Draft, place: usize, field: &ConditionalField, way: Way) -> bool {
    let condition_holds = draft.meets(place, field.condition);
    match way {
        Holds | OtherIndicator => condition_holds,
        Original => !condition_holds,
        OtherMeter => field.condition == Condition::CumulativeMeter || site_status(draft, place) == "E",
        OtherStatus => draft.meets(place, Condition::CumulativeMeter),
        OtherStatusAndMeter | OtherDemand => true,
    }
}

/// Changes the codes of a record for a way.
fn make(random: &mut Random, draft: &mut Draft, place: usize, way: Way) {
    let record_type = draft.records[place].record_type;
    if let (OtherIndicator, Some(number)) = (way, record_type.cancel_indicator_field()) {
        draft.records[place].set(number, random.pick(&["y", "n", "X", " ", "1"]));
    }
    if let (OtherMeter | OtherStatusAndMeter, Some(number)) = (way, record_type.meter_type_field()) {
        draft.records[place].set(number, random.pick(&["I", "U", "T", "S", "c", " "]));
    }
    if let (OtherStatus | OtherStatusAndMeter, Some(header)) = (way, draft.period_header(place)) {
        draft.records[header].set(11, random.pick(&["D", "I", "e", " "]));
    }
    if let (OtherDemand, Some(number)) = (way, record_type.demand_type_field()) {
        draft.records[place].set(number, random.pick(&["4000", "4040", "4080", "4130", "4190", "-4100", "410"]));
    }
}

/// Holds a valid file in which the field of a record is left out in a way.
fn hold_left_out(comparison: &mut Comparison, generator: &mut Generator, field: &ConditionalField, way: Way) {
    let (mut draft, place) = draft_with(generator, field.record_type, |draft, place| can_be_made(draft, place, field, way));
    make(&mut generator.random, &mut draft, place, way);
    draft.records[place].set(field.number, "");
    assert_eq!(draft.meets(place, field.condition), way == Holds);
    let expected = match way {
        Holds => (6, place as u32 + 1),
        OtherIndicator => (7, place as u32 + 1),
        _ => (0, 0),
    };
    let proved = comparison.hold(RETAILER, b"0040", &draft.plain_bytes());
    assert_eq!(proved, expected, "{field:?} is left out, {way:?}");
    if way == Holds {
        hold_order(comparison, draft, expected);
    }
}

/// Holds a file that 6 refuses with two more faults, "after 5 and before 7": a commodity that 7 refuses at the first line, and then a total
/// that 5 misses at the last.
fn hold_order(comparison: &mut Comparison, mut draft: Draft, refused: (u32, u32)) {
    let lines = draft.records.len();
    draft.records[0].set(6, "XX");
    assert_eq!(comparison.hold(RETAILER, b"0040", &draft.plain_bytes()), refused);
    draft.records[lines - 1].set(5, "");
    assert_eq!(comparison.hold(RETAILER, b"0040", &draft.plain_bytes()), (5, lines as u32));
}

/// Holds each conditional field left out in each way, and counts them.
pub fn hold(comparison: &mut Comparison, seed: u64) {
    let mut generator = Generator::new(seed, Style::Varied);
    let mut counts: BTreeMap<(String, Way), u64> = BTreeMap::new();
    let name = |field: &ConditionalField| format!("{} {}", field.record_type.code(), field.number);
    for field in CONDITIONAL_FIELDS {
        for &way in ways_of(field.condition) {
            for _ in 0..LEFT_OUT_FOR_EACH {
                hold_left_out(comparison, &mut generator, &field, way);
                *counts.entry((name(&field), way)).or_insert(0) += 1;
            }
        }
    }
    let mut shown = Vec::new();
    for field in CONDITIONAL_FIELDS {
        let met = |way: &Way| counts.get(&(name(&field), *way)).copied().unwrap_or(0);
        let ways = ways_of(field.condition);
        assert!(ways.iter().all(|way| met(way) >= MET), "{} is left out too seldom: {counts:?}", name(&field));
        let ways: Vec<String> = ways.iter().map(|way| format!("{way:?} {}", met(way))).collect();
        shown.push(format!("{} {}", name(&field), ways.join(" ")));
    }
    println!("conditional fields left out {}", shown.join(", "));
}
