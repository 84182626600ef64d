//! Milliseconds since 1970 as the listing prints them.

/// The last millisecond of the year 9999.
pub const LAST: i64 = 253_402_300_799_999;
const SECOND: i64 = 1_000;
const SECONDS_OF_DAY: i64 = 86_400;

/// The date and time with three decimals, or "@" and the number outside the
/// years 1970 to 9999.
pub fn text(milliseconds: i64) -> String {
    if !(0..=LAST).contains(&milliseconds) {
        return format!("@{milliseconds}");
    }
    let (seconds, decimals) = (milliseconds / SECOND, milliseconds % SECOND);
    let (year, month, day) = date(seconds / SECONDS_OF_DAY);
    let rest = seconds % SECONDS_OF_DAY;
    let (hour, minute, second) = (rest / 3600, rest / 60 % 60, rest % 60);
    format!("{year:04}-{month:02}-{day:02}T{hour:02}:{minute:02}:{second:02}.{decimals:03}Z")
}

/// Year, month and day of a day counted from 1970-01-01.
fn date(days: i64) -> (i64, i64, i64) {
    // No year is longer than 366 days, so this one is not later than the day's own.
    let mut year = 1970 + days / 366;
    while days >= new_year(year + 1) {
        year += 1;
    }
    let mut day = days - new_year(year);
    let mut month = 1;
    while day >= days_of_month(year, month) {
        day -= days_of_month(year, month);
        month += 1;
    }
    (year, month, day + 1)
}

/// The first of January of a year, as a day counted from 1970-01-01.
pub fn new_year(year: i64) -> i64 {
    let leap_years = |last: i64| last / 4 - last / 100 + last / 400;
    365 * (year - 1970) + leap_years(year - 1) - leap_years(1969)
}

fn leap(year: i64) -> bool {
    year % 4 == 0 && (year % 100 != 0 || year % 400 == 0)
}

fn days_of_month(year: i64, month: i64) -> i64 {
    match month {
        2 => 28 + i64::from(leap(year)),
        4 | 6 | 9 | 11 => 30,
        _ => 31,
    }
}

#[cfg(test)]
mod tests {
    use super::{date, text};

    #[test]
    fn ends_of_the_range() {
        assert_eq!(text(0), "1970-01-01T00:00:00.000Z");
        assert_eq!(text(253_402_300_799_999), "9999-12-31T23:59:59.999Z");
        assert_eq!(text(253_402_300_800_000), "@253402300800000");
        assert_eq!(text(-1), "@-1");
        assert_eq!(text(-1000), "@-1000");
        assert_eq!(text(i64::MIN), "@-9223372036854775808");
        assert_eq!(text(i64::MAX), "@9223372036854775807");
    }

    /// What would end the range if times were seconds is a date like others.
    #[test]
    fn times_that_look_like_seconds() {
        assert_eq!(text(86_400), "1970-01-01T00:01:26.400Z");
        assert_eq!(text(86_401), "1970-01-01T00:01:26.401Z");
        assert_eq!(text(1_000_000_000), "1970-01-12T13:46:40.000Z");
        assert_eq!(text(253_402_300_799), "1978-01-11T21:31:40.799Z");
        assert_eq!(text(253_402_300_800), "1978-01-11T21:31:40.800Z");
    }

    #[test]
    fn decimals_are_three_and_not_rounded() {
        assert_eq!(text(1), "1970-01-01T00:00:00.001Z");
        assert_eq!(text(9), "1970-01-01T00:00:00.009Z");
        assert_eq!(text(10), "1970-01-01T00:00:00.010Z");
        assert_eq!(text(99), "1970-01-01T00:00:00.099Z");
        assert_eq!(text(100), "1970-01-01T00:00:00.100Z");
        assert_eq!(text(999), "1970-01-01T00:00:00.999Z");
        assert_eq!(text(1000), "1970-01-01T00:00:01.000Z");
        assert_eq!(text(59_999), "1970-01-01T00:00:59.999Z");
        assert_eq!(text(60_000), "1970-01-01T00:01:00.000Z");
        assert_eq!(text(3_599_999), "1970-01-01T00:59:59.999Z");
        assert_eq!(text(3_600_000), "1970-01-01T01:00:00.000Z");
        assert_eq!(text(86_399_999), "1970-01-01T23:59:59.999Z");
        assert_eq!(text(86_400_000), "1970-01-02T00:00:00.000Z");
    }

    #[test]
    fn leading_zeros_and_none() {
        assert_eq!(text(1_249_625_104_003), "2009-08-07T06:05:04.003Z");
        assert_eq!(text(1_292_325_133_012), "2010-12-14T11:12:13.012Z");
        assert_eq!(text(1_292_325_133_345), "2010-12-14T11:12:13.345Z");
    }

    #[test]
    fn leap_days_and_their_neighbours() {
        assert_eq!(text(68_169_600_000), "1972-02-29T00:00:00.000Z");
        assert_eq!(text(68_255_999_999), "1972-02-29T23:59:59.999Z");
        assert_eq!(text(68_256_000_000), "1972-03-01T00:00:00.000Z");
        assert_eq!(text(951_782_399_999), "2000-02-28T23:59:59.999Z");
        assert_eq!(text(951_782_400_000), "2000-02-29T00:00:00.000Z");
        assert_eq!(text(951_868_799_999), "2000-02-29T23:59:59.999Z");
        assert_eq!(text(951_868_800_000), "2000-03-01T00:00:00.000Z");
        assert_eq!(text(951_955_199_999), "2000-03-01T23:59:59.999Z");
        assert_eq!(text(4_107_456_000_000), "2100-02-28T00:00:00.000Z");
        assert_eq!(text(4_107_542_399_999), "2100-02-28T23:59:59.999Z");
        assert_eq!(text(4_107_542_400_000), "2100-03-01T00:00:00.000Z");
        assert_eq!(text(4_107_628_799_999), "2100-03-01T23:59:59.999Z");
        assert_eq!(text(13_574_563_200_000), "2400-02-29T00:00:00.000Z");
    }

    #[test]
    fn ends_of_years() {
        assert_eq!(text(978_307_199_999), "2000-12-31T23:59:59.999Z");
        assert_eq!(text(978_307_200_000), "2001-01-01T00:00:00.000Z");
        assert_eq!(text(1_009_843_199_999), "2001-12-31T23:59:59.999Z");
        assert_eq!(text(1_009_843_200_000), "2002-01-01T00:00:00.000Z");
        assert_eq!(text(4_133_980_799_999), "2100-12-31T23:59:59.999Z");
        assert_eq!(text(4_133_980_800_000), "2101-01-01T00:00:00.000Z");
    }

    /// Every day of the range, by a formula that counts years from March and
    /// so needs neither leap years nor the lengths of months.
    #[test]
    fn every_day() {
        let counted = |days: i64| {
            let from_march = days + 719_468;
            let (cycle, rest) = (from_march / 146_097, from_march % 146_097);
            let year = (rest - rest / 1460 + rest / 36_524 - rest / 146_096) / 365;
            let day = rest - (365 * year + year / 4 - year / 100);
            let month = (5 * day + 2) / 153;
            let january = i64::from(month >= 10);
            (400 * cycle + year + january, month + 3 - 12 * january, day - (153 * month + 2) / 5 + 1)
        };
        let last = 2_932_896;
        assert_eq!((date(0), date(last)), ((1970, 1, 1), (9999, 12, 31)));
        for day in 0..=last {
            assert_eq!(date(day), counted(day), "day {day}");
        }
    }
}
