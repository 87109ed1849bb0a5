//! Records whose fields are all filled and as long as their types allow, with the values that they had.

use reference::fields::FieldType;
use reference::file::Mark;
use reference::generate::draft::DraftRecord;

/// Fills and lengthens the fields of a record.
pub fn lengthen(record: &mut DraftRecord) {
    let unit_field = record.record_type.usage_unit_field();
    for (place, description) in record.record_type.fields().iter().enumerate() {
        if description.mark != Mark::MandatoryNull && unit_field != Some(place + 1) {
            record.fields[place] = longest(&record.fields[place], description.field_type);
        }
    }
}

/// The longest text that fits a type and has the value of the given one.
fn longest(text: &str, field_type: FieldType) -> String {
    match field_type {
        FieldType::RecordId => format!("{text:0>15}"),
        FieldType::Digits(count) => format!("{text:0>count$}"),
        FieldType::Number(precision, places) => longest_number(text, (precision - places) as usize, places as usize),
        FieldType::Date if text.is_empty() => "20991231".to_owned(),
        FieldType::DateTime if text.is_empty() => "20991231235959".to_owned(),
        FieldType::Date | FieldType::DateTime => text.to_owned(),
        FieldType::Char(length) | FieldType::Varchar(length) => format!("{text:X<length$}"),
    }
}

/// A number with all its digits, and a minus if it is zero.
fn longest_number(text: &str, whole_digits: usize, places: usize) -> String {
    let magnitude = text.trim_start_matches('-');
    let is_zero = magnitude.bytes().all(|byte| matches!(byte, b'0' | b'.'));
    let sign = if is_zero || text.starts_with('-') { "-" } else { "" };
    let (whole, fraction) = magnitude.split_once('.').unwrap_or((magnitude, ""));
    match places {
        0 => format!("{sign}{whole:0>whole_digits$}"),
        _ => format!("{sign}{whole:0>whole_digits$}.{fraction:0<places$}"),
    }
}
