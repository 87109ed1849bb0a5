//! The conditions of test 6: "every field marked Conditional whose condition
//! reads only fields of the same record or of its FH, SH or TH, as Tables 4-2
//! to 4-10 word it." (document 02, 2)
//!
//! "Conditions that need a published list, or a fact that no such field states,
//! stay untested": FH 8 and 9, SH 5, 6, 10 and 18, DD 11, 14 and 15. DD 11 reads
//! the Meter Type Code, which is a field of DU.

use crate::fields::{amount_of, Amount};
use crate::file::RecordType::{
    self, DemandDeterminant, OneTimeCharge, PeriodHeader, UsageDeterminant,
};
use crate::file::RECORD_TYPES;

/// When a conditional field is mandatory.
#[derive(Clone, Copy, Debug, PartialEq, Eq, PartialOrd, Ord)]
pub enum Condition {
    /// "If Cancel Indicator = "Y" this field is mandatory".
    Cancel,
    /// "If Meter Type Code = "C" this field is mandatory."
    CumulativeMeter,
    /// "If Site Status Code = "E" and Meter Type Code = "C" this field is
    /// mandatory."
    EnergizedCumulativeMeter,
    /// "If Demand Type Code = "Ratchet," "Transmission Ratchet," "Distribution
    /// Ratchet" or "Service Ratchet" this field is mandatory".
    Ratchet,
}

use Condition::*;

/// A field that is mandatory where a condition holds.
#[derive(Clone, Copy, Debug)]
pub struct ConditionalField {
    /// The record's type.
    pub record_type: RecordType,
    /// The field's number.
    pub number: usize,
    /// The condition.
    pub condition: Condition,
}

const fn mandatory_if(
    condition: Condition,
    record_type: RecordType,
    number: usize,
) -> ConditionalField {
    ConditionalField { record_type, number, condition }
}

/// The fields that test 6 asks for.
pub const CONDITIONAL_FIELDS: [ConditionalField; 13] = [
    mandatory_if(Cancel, PeriodHeader, 8), // Tariff Bill Period Reference ID
    mandatory_if(Cancel, PeriodHeader, 9), // Cancel Reason Code
    mandatory_if(CumulativeMeter, UsageDeterminant, 9), // Meter Number
    mandatory_if(EnergizedCumulativeMeter, UsageDeterminant, 10), // Number of Dials
    mandatory_if(EnergizedCumulativeMeter, UsageDeterminant, 11), // From Reading
    mandatory_if(EnergizedCumulativeMeter, UsageDeterminant, 12), // From Reading Code
    mandatory_if(EnergizedCumulativeMeter, UsageDeterminant, 13), // To Reading
    mandatory_if(EnergizedCumulativeMeter, UsageDeterminant, 14), // To Reading Code
    mandatory_if(EnergizedCumulativeMeter, UsageDeterminant, 15), // Billing Multiplier
    mandatory_if(Ratchet, DemandDeterminant, 12), // Ratchet Date Time
    mandatory_if(Ratchet, DemandDeterminant, 13), // Ratchet Period Months
    mandatory_if(Cancel, OneTimeCharge, 7), // One-Time Charge Reference ID
    mandatory_if(Cancel, OneTimeCharge, 8), // Cancel Reason Code
];

/// All conditions.
pub const CONDITIONS: [Condition; 4] = [Cancel, CumulativeMeter, EnergizedCumulativeMeter, Ratchet];

/// The Demand Type Codes of the four ratchets (A5.15).
pub const RATCHETS: [i64; 4] = [4100, 4110, 4120, 4200];

/// The fields of each type that each condition makes mandatory, as bits.
const MANDATORY_FIELDS: [[u32; RECORD_TYPES.len()]; CONDITIONS.len()] = {
    let mut fields = [[0; RECORD_TYPES.len()]; CONDITIONS.len()];
    let mut row = 0;
    while row < CONDITIONAL_FIELDS.len() {
        let ConditionalField { record_type, number, condition } = CONDITIONAL_FIELDS[row];
        fields[condition as usize][record_type as usize] |= 1 << (number - 1);
        row += 1;
    }
    fields
};

impl Condition {
    /// The fields of a type that the condition makes mandatory: a bit for each,
    /// the first field's the lowest.
    pub const fn mandatory_fields(self, record_type: RecordType) -> u32 {
        MANDATORY_FIELDS[self as usize][record_type as usize]
    }

    /// Whether the condition holds of a record of this type, which has these
    /// fields by their numbers. The Site Status Code is that of the nearest TH
    /// before the record; where there is none, it isn't "E".
    pub fn holds<'a>(
        self,
        record_type: RecordType,
        field: impl Fn(usize) -> &'a [u8],
        site_status: impl Fn() -> Option<&'a [u8]>,
    ) -> bool {
        let is_cumulative =
            || record_type.meter_type_field().is_some_and(|number| field(number) == b"C");
        match self {
            Cancel => {
                record_type.cancel_indicator_field().is_some_and(|number| field(number) == b"Y")
            }
            CumulativeMeter => is_cumulative(),
            EnergizedCumulativeMeter => is_cumulative() && site_status() == Some(b"E"),
            Ratchet => {
                record_type.demand_type_field().is_some_and(|number| is_ratchet(field(number)))
            }
        }
    }
}

/// Whether a Demand Type Code, Number(4), is a ratchet's, by value.
fn is_ratchet(demand_type: &[u8]) -> bool {
    match amount_of(demand_type, 4, 0) {
        Amount::Value(code) => RATCHETS.contains(&code),
        Amount::Missing | Amount::Misses => false,
    }
}

/// The condition that makes the field of a number mandatory, if test 6 asks for
/// it.
pub fn condition_of(record_type: RecordType, number: usize) -> Option<Condition> {
    let is_field = |row: &&ConditionalField| row.record_type == record_type && row.number == number;
    CONDITIONAL_FIELDS.iter().find(is_field).map(|row| row.condition)
}

#[cfg(test)]
mod tests {
    use super::*;
    use crate::file::Mark;

    /// Each row is of a field that its table marks Conditional, and the fields
    /// that stay untested are the other ones.
    #[test]
    fn rows_are_conditional_fields() {
        let mut untested = Vec::new();
        for record_type in RECORD_TYPES {
            for (field, number) in record_type.fields().iter().zip(1..) {
                let condition = condition_of(record_type, number);
                assert!(condition.is_none() || field.mark == Mark::Conditional, "{field:?}");
                if condition.is_none() && field.mark == Mark::Conditional {
                    untested.push((record_type.code(), number));
                }
            }
        }
        let expected = [
            ("FH", 8),
            ("FH", 9),
            ("SH", 5),
            ("SH", 6),
            ("SH", 10),
            ("SH", 18),
            ("DD", 11),
            ("DD", 14),
            ("DD", 15),
        ];
        assert_eq!(untested, expected);
    }

    #[test]
    fn bits_are_those_of_the_rows() {
        for (place, condition) in CONDITIONS.into_iter().enumerate() {
            assert_eq!(condition as usize, place);
            for record_type in RECORD_TYPES {
                for number in 1..=record_type.fields().len() {
                    let bit = condition.mandatory_fields(record_type) >> (number - 1) & 1;
                    assert_eq!(bit == 1, condition_of(record_type, number) == Some(condition));
                }
            }
        }
    }

    /// A5.15 has 24 codes, of which four are ratchets. A minus makes another
    /// value.
    #[test]
    fn ratchets() {
        let codes =
            (4000..=4230).step_by(10).filter(|code| is_ratchet(code.to_string().as_bytes()));
        assert_eq!(codes.collect::<Vec<i64>>(), RATCHETS);
        for code in [&b"-4100"[..], b"", b"410", b"41000", b"4100.0", b" 4100", b"41OO"] {
            assert!(!is_ratchet(code));
        }
    }
}
