//! Calendar times for the head of a record.
use std::fmt;
use std::time::Duration;

const DAY: u64 = 86_400;

/// The first second of the year 10,000, since years have four digits.
const END: u64 = 253_402_300_800;

/// A time in UTC, to the microsecond, shown as an offset date-time of RFC 3339 and TOML.
#[derive(Clone, Copy)]
pub(crate) struct Moment(Duration);

impl Moment {
    /// The moment this long after the beginning of 1970. None after the year 9999.
    pub(crate) fn after_1970(time: Duration) -> Option<Moment> {
        (time.as_secs() < END).then_some(Moment(time))
    }
}

impl fmt::Display for Moment {
    fn fmt(&self, f: &mut fmt::Formatter<'_>) -> fmt::Result {
        let (days, second) = (self.0.as_secs() / DAY, self.0.as_secs() % DAY);
        let (year, month, day) = date_of(days);
        let (hour, minute, second) = (second / 3_600, second / 60 % 60, second % 60);
        let micros = self.0.subsec_micros();
        write!(f, "{year:04}-{month:02}-{day:02}T")?;
        write!(f, "{hour:02}:{minute:02}:{second:02}.{micros:06}Z")
    }
}

// The year, month and day, this many days after 1970-01-01. Years are counted from March, so that a leap day is the last day of one, and
// in eras of 400 years, which have 146,097 days each.
fn date_of(days: u64) -> (u64, u64, u64) {
    // Days since 0000-03-01.
    let days = days + 719_468;
    let (era, day) = (days / 146_097, days % 146_097);
    let year = (day - day / 1_460 + day / 36_524 - day / 146_096) / 365;
    let day = day - (365 * year + year / 4 - year / 100);
    // Starting in March, five months have 153 days: 31, 30, 31, 30 and 31.
    let month = (5 * day + 2) / 153;
    let day = day - (153 * month + 2) / 5 + 1;
    let is_next_year = month >= 10;
    let month = if is_next_year { month - 9 } else { month + 3 };
    (era * 400 + year + u64::from(is_next_year), month, day)
}

#[cfg(test)]
mod tests {
    use super::*;

    fn shown(seconds: u64, nanos: u32) -> Option<String> {
        Moment::after_1970(Duration::new(seconds, nanos)).map(|moment| moment.to_string())
    }

    // The seconds are those of `date -u +%s`.
    #[test]
    fn moments_are_shown() {
        for (seconds, nanos, wanted) in [
            (0, 0, "1970-01-01T00:00:00.000000Z"),
            (86_399, 999_999_999, "1970-01-01T23:59:59.999999Z"),
            (951_782_399, 1_000, "2000-02-28T23:59:59.000001Z"),
            (951_782_400, 999, "2000-02-29T00:00:00.000000Z"),
            (951_868_800, 0, "2000-03-01T00:00:00.000000Z"),
            (1_000_000_000, 250_000_000, "2001-09-09T01:46:40.250000Z"),
            (1_709_251_199, 0, "2024-02-29T23:59:59.000000Z"),
            (1_735_689_599, 0, "2024-12-31T23:59:59.000000Z"),
            (1_735_689_600, 0, "2025-01-01T00:00:00.000000Z"),
            (4_107_542_399, 0, "2100-02-28T23:59:59.000000Z"),
            (4_107_542_400, 0, "2100-03-01T00:00:00.000000Z"),
            (253_402_300_799, 0, "9999-12-31T23:59:59.000000Z"),
        ] {
            assert_eq!(shown(seconds, nanos).as_deref(), Some(wanted));
        }
        assert_eq!(shown(253_402_300_800, 0), None);
    }

    // Each day comes after the one before, by the lengths of the months.
    #[test]
    fn days_follow_each_other() {
        let (mut year, mut month, mut day) = (1970, 1, 1);
        for days in 0..END / DAY {
            assert_eq!(date_of(days), (year, month, day));
            let is_leap = year % 4 == 0 && (year % 100 != 0 || year % 400 == 0);
            let length = match month {
                2 => 28 + u64::from(is_leap),
                4 | 6 | 9 | 11 => 30,
                _ => 31,
            };
            day += 1;
            if day > length {
                (month, day) = (month + 1, 1);
            }
            if month > 12 {
                (year, month) = (year + 1, 1);
            }
        }
        assert_eq!(year, 10_000);
    }
}
