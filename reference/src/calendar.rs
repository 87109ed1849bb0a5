//! Dates and date times.
//!
//! Document 01, "The file": "A date is eight digits, YYYYMMDD, years 2000 to
//! 2099. Day 0 is 20000101."

use crate::fields::digits_value;

/// The last day of the calendar: the day number of 20991231.
pub const LAST_DAY: u32 = 36_524;

const FIRST_YEAR: u32 = 2000;
const LAST_YEAR: u32 = 2099;

/// "The day number of the first of each of these 1,200 months is a table."
/// Here with the first of the month after them.
static FIRST_DAYS: [u32; MONTHS + 1] = first_days();

const MONTHS: usize = 1_200;

const fn first_days() -> [u32; MONTHS + 1] {
    let mut first_days = [0; MONTHS + 1];
    let mut place = 0;
    while place < MONTHS {
        let (year, month) = (FIRST_YEAR + place as u32 / 12, place as u32 % 12 + 1);
        first_days[place + 1] = first_days[place] + month_length(year, month);
        place += 1;
    }
    first_days
}

/// The day number of a date: "A date is eight digits, YYYYMMDD, years 2000 to
/// 2099. Day 0 is 20000101." None if the bytes aren't a date.
pub fn day_of(date: &[u8]) -> Option<u32> {
    let date: &[u8; 8] = date.try_into().ok()?;
    let year = digits_value(&date[..4])? as u32;
    let month = digits_value(&date[4..6])? as u32;
    let day = digits_value(&date[6..])? as u32;
    if !(FIRST_YEAR..=LAST_YEAR).contains(&year) || !(1..=12).contains(&month) {
        return None;
    }
    let place = ((year - FIRST_YEAR) * 12 + month - 1) as usize;
    let (first, next) = (FIRST_DAYS[place], FIRST_DAYS[place + 1]);
    (1..=next - first).contains(&day).then(|| first + day - 1)
}

/// The day number and the second of the day of a date time: "A date time is a
/// date and six digits HHMMSS (000000 to 235959)", its minutes and seconds
/// 00 to 59 each (Rule 004, A4.6.5). None if the bytes aren't a date time.
pub fn moment_of(date_time: &[u8]) -> Option<(u32, u32)> {
    if date_time.len() != 14 {
        return None;
    }
    let (date, time) = date_time.split_at(8);
    Some((day_of(date)?, second_of(time)?))
}

/// The date of a day number, YYYYMMDD. None past 20991231.
pub fn date_of(day: u32) -> Option<String> {
    if day > LAST_DAY {
        return None;
    }
    let place = FIRST_DAYS.partition_point(|&first| first <= day) - 1;
    let (year, month) = (FIRST_YEAR + place as u32 / 12, place % 12 + 1);
    Some(format!("{year:04}{month:02}{:02}", day - FIRST_DAYS[place] + 1))
}

/// The second of the day of six digits HHMMSS.
fn second_of(time: &[u8]) -> Option<u32> {
    let digits = digits_value(time)? as u32;
    let (hour, minute, second) = (digits / 10_000, digits / 100 % 100, digits % 100);
    (hour < 24 && minute < 60 && second < 60).then_some(hour * 3_600 + minute * 60 + second)
}

/// The number of days of a month of the Gregorian calendar.
const fn month_length(year: u32, month: u32) -> u32 {
    match month {
        2 if is_leap(year) => 29,
        2 => 28,
        4 | 6 | 9 | 11 => 30,
        _ => 31,
    }
}

/// Every fourth year is a leap year, but of the full centuries only every
/// fourth.
const fn is_leap(year: u32) -> bool {
    year.is_multiple_of(4) && (!year.is_multiple_of(100) || year.is_multiple_of(400))
}

#[cfg(test)]
mod tests {
    use super::*;

    /// "Desk examples": the starred dates.
    #[test]
    fn desk_examples() {
        assert_eq!(day_of(b"20000101"), Some(0));
        assert_eq!(day_of(b"20000229"), Some(59));
        assert_eq!(day_of(b"20010101"), Some(366));
        assert_eq!(day_of(b"20991231"), Some(36_524));
        assert_eq!(day_of(b"20010229"), None);
        assert_eq!(day_of(b"21000101"), None);
    }

    /// Each date of the hundred years, in order, has the next day number.
    #[test]
    fn days_are_consecutive() {
        let mut expected = 0;
        for year in FIRST_YEAR..=LAST_YEAR {
            for month in 0..=13 {
                for day in 0..=32 {
                    let date = format!("{year:04}{month:02}{day:02}");
                    let exists =
                        (1..=12).contains(&month) && (1..=month_length(year, month)).contains(&day);
                    assert_eq!(day_of(date.as_bytes()), exists.then_some(expected), "{date}");
                    if exists {
                        assert_eq!(date_of(expected), Some(date));
                    }
                    expected += u32::from(exists);
                }
            }
        }
        assert_eq!(expected, LAST_DAY + 1);
        assert_eq!(date_of(expected), None);
    }

    #[test]
    fn other_bytes_are_no_dates() {
        for bytes in
            [&b""[..], b"2000010", b"200001011", b"2000010a", b"-2000101", b"19991231", b"2000 101"]
        {
            assert_eq!(day_of(bytes), None);
        }
    }

    #[test]
    fn date_times() {
        assert_eq!(moment_of(b"20000101000000"), Some((0, 0)));
        assert_eq!(moment_of(b"20991231235959"), Some((36_524, 86_399)));
        for bytes in [
            &b"20000101240000"[..],
            b"20000101006000",
            b"20000101000060",
            b"20010229000000",
            b"20000101",
            b"2000010100000",
            b"200001010000000",
            b"20000101 00000",
        ] {
            assert_eq!(moment_of(bytes), None);
        }
    }
}
