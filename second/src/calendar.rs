//! Renders the date rule of "The bundle" and "Pricing", with the months of R-3; a day is the number YYYYMMDD.

use std::ops::RangeInclusive;

pub const YEARS: RangeInclusive<u64> = 1583..=9999;
pub const FIRST_DAY: u64 = 15_830_101;
pub const LAST_DAY: u64 = 99_991_231;

pub fn is_leap_year(year: u64) -> bool {
    if year.is_multiple_of(100) {
        year.is_multiple_of(400)
    } else {
        year.is_multiple_of(4)
    }
}

/// None in a month that is none.
pub fn days_in_month(year: u64, month: u64) -> u64 {
    match month {
        1 | 3 | 5 | 7 | 8 | 10 | 12 => 31,
        4 | 6 | 9 | 11 => 30,
        2 if is_leap_year(year) => 29,
        2 => 28,
        _ => 0,
    }
}

pub fn is_real_day(day: u64) -> bool {
    let (year, month, day_of_month) = split(day);
    YEARS.contains(&year) && (1..=days_in_month(year, month)).contains(&day_of_month)
}

pub fn join(year: u64, month: u64, day_of_month: u64) -> u64 {
    year * 10_000 + month * 100 + day_of_month
}

pub fn split(day: u64) -> (u64, u64, u64) {
    (day / 10_000, day / 100 % 100, day % 100)
}

pub fn day_after(day: u64) -> u64 {
    let (year, month, day_of_month) = split(day);
    if day_of_month < days_in_month(year, month) {
        day + 1
    } else if month < 12 {
        join(year, month + 1, 1)
    } else {
        join(year + 1, 1, 1)
    }
}

pub fn day_before(day: u64) -> u64 {
    let (year, month, day_of_month) = split(day);
    if day_of_month > 1 {
        day - 1
    } else if month > 1 {
        join(year, month - 1, days_in_month(year, month - 1))
    } else {
        join(year - 1, 12, 31)
    }
}

#[cfg(test)]
mod tests {
    use super::*;

    #[test]
    fn twenty_ninth_of_february() {
        assert!(is_real_day(20240229));
        assert!(is_real_day(20000229));
        assert!(!is_real_day(20230229));
        assert!(!is_real_day(21000229));
        assert!(!is_real_day(19000229));
        assert!(is_real_day(16000229));
        assert!(is_real_day(99960229));
        assert!(!is_real_day(20240230));
    }

    #[test]
    fn all_months_but_february_have_thirty_days_or_one_more() {
        let thirty = |month| [4, 6, 9, 11].contains(&month);
        for year in [2023, 2024] {
            for month in (1..=12).filter(|&month| month != 2) {
                let due = if thirty(month) { 30 } else { 31 };
                assert_eq!(days_in_month(year, month), due, "{year}, {month}");
            }
        }
    }

    #[test]
    fn months_make_up_their_year() {
        for (year, february, days) in [
            (2023, 28, 365),
            (2024, 29, 366),
            (2100, 28, 365),
            (2000, 29, 366),
        ] {
            assert_eq!(days_in_month(year, 2), february, "{year}");
            let all: u64 = (1..=12).map(|month| days_in_month(year, month)).sum();
            assert_eq!(all, days, "{year}");
        }
    }

    #[test]
    fn a_month_that_is_none_has_no_days() {
        for month in [0, 13, 14, 50, 99, 258, 1 << 32 | 1, u64::MAX] {
            for year in [2023, 2024] {
                assert_eq!(days_in_month(year, month), 0, "{year}, {month}");
            }
        }
    }

    #[test]
    fn ends_of_the_calendar() {
        assert!(!is_real_day(15821231));
        assert!(is_real_day(FIRST_DAY));
        assert!(is_real_day(LAST_DAY));
        assert!(!is_real_day(100000101));
        assert!(!is_real_day(0));
        assert!(!is_real_day(u64::MAX));
    }

    #[test]
    fn months_and_days_out_of_range() {
        for day in [
            20240001, 20241301, 20240100, 20240132, 20240431, 20240631, 20240931, 20241131,
        ] {
            assert!(!is_real_day(day), "{day}");
        }
        assert!(is_real_day(20240430));
        assert!(is_real_day(20241231));
    }

    #[test]
    fn four_centuries_have_146097_days() {
        let days = (20000101..24000101).filter(|&day| is_real_day(day)).count();
        assert_eq!(days, 146_097);
    }

    #[test]
    fn days_follow_each_other() {
        let mut day = 15990101;
        for _ in 0..10_000 {
            let next = day_after(day);
            assert!(is_real_day(next) && next > day);
            assert_eq!(day_before(next), day);
            day = next;
        }
    }
}
