//! Dates of days that are counted from 1 January 1970.

/// Days from 1 March of the year 0 to 1 January 1970. Years that begin in March have a leap day, if any,
/// as their last one.
const BEFORE: u64 = 719_468;

/// After so many years the calendar begins anew, and so many days are that.
const CYCLE_YEARS: u64 = 400;
const CYCLE_DAYS: u64 = 146_097;

/// A day as YYYY-MM-DD in the Gregorian calendar, with more digits for the years that need them.
pub fn date(day: u64) -> String {
    let day = BEFORE + day;
    let (cycle, in_cycle) = (day / CYCLE_DAYS, day % CYCLE_DAYS);
    // Leap days are left out, so that a year has 365 days. One ends every fourth year, but no hundredth
    // one, unless that ends the cycle.
    let leap_days = in_cycle / 1460 - in_cycle / 36_524 + in_cycle / (CYCLE_DAYS - 1);
    let year = (in_cycle - leap_days) / 365;
    let in_year = in_cycle - (365 * year + year / 4 - year / 100);
    // From March on, five months have 153 days, as 31, 30, 31, 30 and 31.
    let from_march = (5 * in_year + 2) / 153;
    let in_month = in_year - (153 * from_march + 2) / 5;
    let month = (from_march + 2) % 12 + 1;
    let year = CYCLE_YEARS * cycle + year + u64::from(month <= 2);
    format!("{year:04}-{month:02}-{:02}", in_month + 1)
}

#[cfg(test)]
mod tests {
    use super::*;

    fn days_of_month(year: u64, month: u64) -> u64 {
        let leap = year % 4 == 0 && year % 100 != 0 || year % 400 == 0;
        match month {
            2 => 28 + u64::from(leap),
            4 | 6 | 9 | 11 => 30,
            _ => 31,
        }
    }

    /// Day by day through two cycles of the calendar and more.
    #[test]
    fn each_day_has_its_date() {
        let (mut year, mut month, mut in_month) = (1970, 1, 1);
        for day in 0..2 * CYCLE_DAYS + 1000 {
            assert_eq!(date(day), format!("{year}-{month:02}-{in_month:02}"));
            in_month += 1;
            if in_month > days_of_month(year, month) {
                (month, in_month) = (month + 1, 1);
            }
            if month > 12 {
                (year, month) = (year + 1, 1);
            }
        }
    }

    #[test]
    fn the_calendar_begins_anew_after_400_years() {
        for day in [0, 58, 59, 10_956, 11_016, 20_000, 47_540, 146_096] {
            for cycles in [1, 20, 29_000] {
                let (early, late) = (date(day), date(day + cycles * CYCLE_DAYS));
                let (year, rest) = early.split_at(4);
                let year = year.parse::<u64>().unwrap() + cycles * CYCLE_YEARS;
                assert_eq!(late, format!("{year}{rest}"));
            }
        }
    }

    #[test]
    fn days_that_are_known() {
        assert_eq!(date(0), "1970-01-01");
        assert_eq!(date(100), "1970-04-11");
        assert_eq!(date(11_016), "2000-02-29");
        assert_eq!(date(20_000), "2024-10-04");
        assert_eq!(date(47_540), "2100-02-28");
        assert_eq!(date(47_541), "2100-03-01");
        assert_eq!(date(2_932_896), "9999-12-31");
        assert_eq!(date(2_932_897), "10000-01-01");
        assert_eq!(date(u32::MAX.into()), "11761191-01-20");
    }
}
