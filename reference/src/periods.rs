//! Periods of days.
//!
//! Document 01, "The file": "Periods hold both their start day and their end
//! day."

/// A start day and an end day, both in the period. A period whose start is
/// after its end holds no day.
pub type Period = (u64, u64);

/// More days than the calendar has.
const SITE_DAYS: u64 = 1 << 16;

/// A site's day on one line with the days of all sites, site by site. A site
/// has at most 13 digits, so that the number fits.
pub fn site_day(site: u64, day: u64) -> u64 {
    site * SITE_DAYS + day
}

/// A site's period on the line of all sites' days: periods of different sites
/// share no day.
pub fn site_period(site: u64, period: Period) -> Period {
    (site_day(site, period.0), site_day(site, period.1))
}

/// Whether two periods share a day.
pub fn shares_day(one: Period, other: Period) -> bool {
    one.0.max(other.0) <= one.1.min(other.1)
}

/// Whether the first period has days and all of them are days of the second.
pub fn lies_within(inner: Period, outer: Period) -> bool {
    inner.0 <= inner.1 && outer.0 <= inner.0 && inner.1 <= outer.1
}

#[cfg(test)]
mod tests {
    use super::*;
    use crate::calendar::day_of;

    fn period(start: &str, end: &str) -> Period {
        let day = |date: &str| u64::from(day_of(date.as_bytes()).unwrap());
        (day(start), day(end))
    }

    /// "Desk examples": "1 to 31 January and 31 January to 27 February share a
    /// day; from 1 February they don't."
    #[test]
    fn desk_examples() {
        let january = period("20250101", "20250131");
        assert!(shares_day(january, period("20250131", "20250227")));
        assert!(!shares_day(january, period("20250201", "20250227")));
    }

    #[test]
    fn sites_share_no_day() {
        let whole = (0, u64::from(crate::calendar::LAST_DAY));
        let most_site = 9_999_999_999_999;
        for site in [0, 1, 77, most_site - 1] {
            let (one, next) = (site_period(site, whole), site_period(site + 1, whole));
            assert!(one.1 < next.0);
            assert!(shares_day(one, site_period(site, (5, 5))));
            assert!(!shares_day(one, next));
        }
    }

    #[test]
    fn sharing_means_a_common_day() {
        for start in 0..5 {
            for end in 0..5 {
                for other_start in 0..5 {
                    for other_end in 0..5 {
                        let common = (0..5).any(|day| {
                            (start..=end).contains(&day) && (other_start..=other_end).contains(&day)
                        });
                        assert_eq!(shares_day((start, end), (other_start, other_end)), common);
                    }
                }
            }
        }
    }
}
