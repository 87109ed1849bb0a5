//! What a single field may hold: the data types of Rule 004, A4.6, as document
//! 01, "The file", reads them.

use crate::calendar::{day_of, moment_of};

/// The widest Number(p,s) that is read as an amount: "A Number(p,s) amount,
/// with p at most 15".
pub const AMOUNT_PRECISION: u32 = 15;

/// The greatest number of digits of a Record, Parent or Reference ID.
pub const IDENTIFIER_DIGITS: usize = 15;

/// What reading an amount answers: "missing, exactly for an empty field, or a
/// value, or as before that it misses its type" (document 02, 1).
#[derive(Clone, Copy, Debug, PartialEq, Eq)]
pub enum Amount {
    /// The field is empty.
    Missing,
    /// A whole number of units of the last place.
    Value(i64),
    /// The field is filled and has no value of a Number(p,s).
    Misses,
}

impl Amount {
    /// What the amount counts as where it is added or compared: "An empty amount
    /// that isn't mandatory counts as zero." "All sums still count missing as
    /// zero, and every caller must say so itself." (document 02, 1). One that
    /// misses its type has no value either; test 3 refuses it.
    pub const fn or_zero(self) -> i64 {
        match self {
            Amount::Value(units) => units,
            Amount::Missing | Amount::Misses => 0,
        }
    }
}

/// The data types of Tables 4-2 to 4-10.
#[derive(Clone, Copy, Debug, PartialEq, Eq)]
pub enum FieldType {
    /// "Record, Parent and Reference IDs are 1 to 15 digits, without sign".
    RecordId,
    /// Exactly this many digits: "Site IDs are 13 digits, distributor IDs 4,
    /// retailer IDs 9"; zone IDs are four (A5.5).
    Digits(usize),
    /// Number(p,s); "Number(p) is Number(p,0)".
    Number(u32, u32),
    /// A date, YYYYMMDD.
    Date,
    /// A date time, YYYYMMDDHHMISS.
    DateTime,
    /// Exactly this many characters (A4.6.1).
    Char(usize),
    /// At most this many characters (A4.6.2).
    Varchar(usize),
}

/// Whether a field fits its type. Test 3 asks it of "every field that isn't
/// empty", so the empty field fits every type.
pub fn fits(field_type: FieldType, field: &[u8]) -> bool {
    field.is_empty() || value_of(field_type, field).is_some()
}

/// The value of a field that isn't empty: of an ID or digits the number, of a
/// date its day, of an amount its units, of other types and of wider numbers 0.
/// None if the field misses its type.
pub fn value_of(field_type: FieldType, field: &[u8]) -> Option<i64> {
    match field_type {
        FieldType::RecordId => identifier_of(field).map(|id| id as i64),
        FieldType::Digits(count) => fixed_digits(field, count).map(|number| number as i64),
        FieldType::Number(precision, places) if precision > AMOUNT_PRECISION => {
            is_number(field, precision, places).then_some(0)
        }
        FieldType::Number(precision, places) => {
            Number::of(field, precision, places).map(Number::units)
        }
        FieldType::Date => day_of(field).map(i64::from),
        FieldType::DateTime => moment_of(field).map(|_| 0),
        FieldType::Char(length) => (field.len() == length).then_some(0),
        FieldType::Varchar(length) => (field.len() <= length).then_some(0),
    }
}

/// The amount in a field: "an optional minus, 1 to p - s digits, then
/// optionally a point and 1 to s digits. It is read as a whole number of units
/// of its last place." The empty field is missing, whatever the width. Of a
/// filled one wider than 15 digits no value is read.
pub fn amount_of(field: &[u8], precision: u32, places: u32) -> Amount {
    if field.is_empty() {
        return Amount::Missing;
    }
    if precision > AMOUNT_PRECISION {
        return Amount::Misses;
    }
    match Number::of(field, precision, places) {
        Some(number) => Amount::Value(number.units()),
        None => Amount::Misses,
    }
}

/// Whether a field has the shape of a Number(p,s), of any width. The empty
/// field hasn't.
pub fn is_number(field: &[u8], precision: u32, places: u32) -> bool {
    Number::of(field, precision, places).is_some()
}

/// A Record, Parent or Reference ID: "1 to 15 digits, without sign, compared
/// by value". "Leading zeros are allowed."
pub fn identifier_of(field: &[u8]) -> Option<u64> {
    if field.len() > IDENTIFIER_DIGITS {
        return None;
    }
    digits_value(field)
}

/// The value of exactly `count` digits, `count` being 1 to 15.
pub fn fixed_digits(field: &[u8], count: usize) -> Option<u64> {
    if field.len() != count || count > IDENTIFIER_DIGITS {
        return None;
    }
    digits_value(field)
}

/// The value of a run of digits. None if it is empty or holds another byte.
/// At most 19 digits, so that the value fits.
pub(crate) fn digits_value(digits: &[u8]) -> Option<u64> {
    debug_assert!(digits.len() <= 19);
    let (value, rest) = leading_digits(0, digits);
    (rest.is_empty() && !digits.is_empty()).then_some(value)
}

/// The value of a number followed by the digits at the start of some bytes,
/// and the bytes after them. From 20 digits on the value is of no use.
fn leading_digits(number: u64, bytes: &[u8]) -> (u64, &[u8]) {
    let mut value = number;
    for (place, byte) in bytes.iter().enumerate() {
        let digit = byte.wrapping_sub(b'0');
        if digit > 9 {
            return (value, &bytes[place..]);
        }
        value = value.wrapping_mul(10).wrapping_add(u64::from(digit));
    }
    (value, &[])
}

/// The powers of ten that scale amounts.
const POWERS_OF_TEN: [i64; AMOUNT_PRECISION as usize + 1] = {
    let mut powers = [1; AMOUNT_PRECISION as usize + 1];
    let mut exponent = 1;
    while exponent < powers.len() {
        powers[exponent] = powers[exponent - 1] * 10;
        exponent += 1;
    }
    powers
};

/// A Number(p,s): "an optional minus, 1 to p - s digits, then optionally a
/// point and 1 to s digits".
#[derive(Clone, Copy)]
struct Number {
    negative: bool,
    /// The value of the digits before and after the point.
    digits: u64,
    /// How many digits it could have more after the point.
    places_left: usize,
}

impl Number {
    /// The number in a field that has the shape of a Number(p,s).
    fn of(field: &[u8], precision: u32, places: u32) -> Option<Self> {
        let (most_whole, places) = (precision.checked_sub(places)? as usize, places as usize);
        let (negative, unsigned) = match field {
            [b'-', unsigned @ ..] => (true, unsigned),
            _ => (false, field),
        };
        let (whole, rest) = leading_digits(0, unsigned);
        if !(1..=most_whole).contains(&(unsigned.len() - rest.len())) {
            return None;
        }
        match rest {
            [] => Some(Number { negative, digits: whole, places_left: places }),
            [b'.', fraction @ ..] if (1..=places).contains(&fraction.len()) => {
                let (digits, rest) = leading_digits(whole, fraction);
                let places_left = places - fraction.len();
                rest.is_empty().then_some(Number { negative, digits, places_left })
            }
            _ => None,
        }
    }

    /// The number in units of its last place. "Minus zero is zero." Called for
    /// at most 15 digits, so that the units fit.
    fn units(self) -> i64 {
        let units = self.digits as i64 * POWERS_OF_TEN[self.places_left];
        if self.negative {
            -units
        } else {
            units
        }
    }
}

#[cfg(test)]
mod tests {
    use super::*;

    /// "Desk examples": "Two places: "12.5" is 1250; "-0" is 0; "12." and ".5"
    /// and "0.005" fail."
    #[test]
    fn desk_examples() {
        assert_eq!(amount_of(b"12.5", 11, 2), Amount::Value(1250));
        assert_eq!(amount_of(b"-0", 11, 2), Amount::Value(0));
        for field in [&b"12."[..], b".5", b"0.005"] {
            assert_eq!(amount_of(field, 11, 2), Amount::Misses);
        }
    }

    /// "missing, exactly for an empty field": a zero is a value, and a blank of
    /// spaces misses its type.
    #[test]
    fn a_missing_amount_is_no_zero() {
        assert_eq!(amount_of(b"", 11, 2), Amount::Missing);
        assert_eq!(amount_of(b"12.50", 11, 2), Amount::Value(1250));
        for zero in [&b"0"[..], b"-0", b"00", b"0.00", b"-00.0"] {
            assert_eq!(amount_of(zero, 11, 2), Amount::Value(0));
        }
        for blank in [&b" "[..], b"  ", b"   ", b"\t", b"0 ", b" 0"] {
            assert_eq!(amount_of(blank, 11, 2), Amount::Misses);
        }
    }

    #[test]
    fn missing_counts_as_zero() {
        assert_eq!(Amount::Missing.or_zero(), 0);
        assert_eq!(Amount::Value(-1250).or_zero(), -1250);
        assert_eq!(Amount::Misses.or_zero(), 0);
    }

    #[test]
    fn amounts_at_their_limits() {
        assert_eq!(amount_of(b"999999999.99", 11, 2), Amount::Value(99_999_999_999));
        assert_eq!(amount_of(b"-999999999.99", 11, 2), Amount::Value(-99_999_999_999));
        assert_eq!(amount_of(b"000000012.5", 11, 2), Amount::Value(1250));
        assert_eq!(amount_of(b"-0.00", 11, 2), Amount::Value(0));
        assert_eq!(amount_of(b"999999999999999", 15, 0), Amount::Value(999_999_999_999_999));
        assert_eq!(amount_of(b"1", 15, 14), Amount::Value(100_000_000_000_000));
        for field in [
            &b"-"[..],
            b".",
            b"-.",
            b"-.5",
            b"--1",
            b"+1",
            b"1-",
            b"1.2.3",
            b" 1",
            b"1e1",
            b"1000000000",
        ] {
            assert_eq!(amount_of(field, 11, 2), Amount::Misses);
        }
        assert_eq!(amount_of(b"5.0", 4, 0), Amount::Misses);
        assert_eq!(amount_of(b"-5", 4, 0), Amount::Value(-5));
    }

    #[test]
    fn widths_that_hold_no_amount() {
        assert_eq!(amount_of(b"1", 16, 2), Amount::Misses);
        assert_eq!(amount_of(b"", 16, 2), Amount::Missing);
        assert_eq!(amount_of(b"1.000000000000", 19, 12), Amount::Misses);
        assert_eq!(amount_of(b"0", 19, 12), Amount::Misses);
        assert_eq!(amount_of(b" ", 19, 12), Amount::Misses);
        assert_eq!(amount_of(b"", 19, 12), Amount::Missing);
        assert_eq!(amount_of(b"", u32::MAX, 0), Amount::Missing);
        assert_eq!(amount_of(b"1", 2, 3), Amount::Misses);
        assert_eq!(amount_of(b"0", 4, 4), Amount::Misses);
        assert_eq!(amount_of(b"0", 0, 0), Amount::Misses);
        assert_eq!(amount_of(b"", 2, 3), Amount::Missing);
    }

    #[test]
    fn numbers_of_any_width() {
        assert!(is_number(b"-1234567.123456789012", 19, 12));
        assert!(!is_number(b"12345678", 19, 12));
        assert!(!is_number(b"1.1234567890123", 19, 12));
        assert!(!is_number(b"", 19, 12));
        assert!(!is_number(b"1", 2, 3));
    }

    #[test]
    fn identifiers() {
        assert_eq!(identifier_of(b"0"), Some(0));
        assert_eq!(identifier_of(b"000000000000012"), Some(12));
        assert_eq!(identifier_of(b"999999999999999"), Some(999_999_999_999_999));
        for field in [&b""[..], b"0000000000000012", b"-1", b"1.0", b"1 "] {
            assert_eq!(identifier_of(field), None);
        }
        assert_eq!(fixed_digits(b"0040", 4), Some(40));
        assert_eq!(fixed_digits(b"040", 4), None);
        assert_eq!(fixed_digits(b"", 0), None);
        assert_eq!(fixed_digits(b"1234567890123456", 16), None);
    }

    #[test]
    fn types() {
        assert!(fits(FieldType::Char(4), b"ABCD"));
        assert!(!fits(FieldType::Char(4), b"ABC"));
        assert!(fits(FieldType::Varchar(3), b"A"));
        assert!(!fits(FieldType::Varchar(3), b"ABCD"));
        assert!(fits(FieldType::Digits(13), b"0000000000001"));
        assert!(!fits(FieldType::Digits(13), b"000000000001"));
        assert!(fits(FieldType::Number(4, 0), b"-202"));
        assert!(!fits(FieldType::RecordId, b"-202"));
        assert!(fits(FieldType::Date, b"20000229"));
        assert!(!fits(FieldType::Date, b"20000230"));
        assert!(fits(FieldType::DateTime, b"20000229235959"));
        for field_type in [
            FieldType::RecordId,
            FieldType::Digits(4),
            FieldType::Number(11, 2),
            FieldType::Date,
            FieldType::DateTime,
            FieldType::Char(1),
            FieldType::Varchar(9),
        ] {
            assert!(fits(field_type, b""));
        }
    }
}
