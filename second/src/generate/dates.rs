//! Renders the date rule, with the months of R-3, as numbers that are dates or nearly.

use crate::calendar::is_leap_year;

/// What decides how long February is.
#[derive(Clone, Copy, Debug, PartialEq, Eq)]
pub enum KindOfYear {
    Common,
    Leap,
    CommonCentury,
    LeapCentury,
}

impl KindOfYear {
    pub const ALL: [KindOfYear; 4] = [
        KindOfYear::Common,
        KindOfYear::Leap,
        KindOfYear::CommonCentury,
        KindOfYear::LeapCentury,
    ];

    pub fn of(year: u64) -> KindOfYear {
        match (year.is_multiple_of(100), is_leap_year(year)) {
            (false, false) => KindOfYear::Common,
            (false, true) => KindOfYear::Leap,
            (true, false) => KindOfYear::CommonCentury,
            (true, true) => KindOfYear::LeapCentury,
        }
    }

    pub fn word(self) -> &'static str {
        match self {
            KindOfYear::Common => "common",
            KindOfYear::Leap => "leap",
            KindOfYear::CommonCentury => "century",
            KindOfYear::LeapCentury => "400th",
        }
    }
}

const ONE_YEAR_OF_EACH_KIND: [u64; 4] = [2023, 2024, 2100, 2000];
const OTHER_NOTED_YEARS: [u64; 14] = [
    0, 1582, 1583, 1584, 1600, 1700, 1899, 1900, 1999, 2026, 2400, 9996, 9999, 10_000,
];
/// They look like 2024 once cut to four digits or to 16 bits.
const WIDE_YEARS: [u64; 2] = [10_000 + 2024, (1 << 16) + 2024];

/// One of each kind comes first.
pub fn noted_years() -> Vec<u64> {
    let noted = [&ONE_YEAR_OF_EACH_KIND[..], &OTHER_NOTED_YEARS, &WIDE_YEARS];
    noted.concat()
}

/// With the noted ones, so many that each remainder by 400 is among them.
pub fn years_of_each_remainder() -> Vec<u64> {
    let mut years = noted_years();
    let spread = (0..400).map(|remainder| 1600 + remainder + remainder % 21 * 400);
    let further: Vec<u64> = spread.filter(|year| !years.contains(year)).collect();
    years.extend(further);
    years
}

/// Every day of every month of every year on it is judged, whether there is such a day or not.
pub struct Sheet {
    pub years: Vec<u64>,
    months: Vec<u64>,
    days: Vec<u64>,
}

impl Sheet {
    /// Every number of two digits as a month and as a day of it, in a year of each kind.
    pub fn of_each_month_and_day() -> Sheet {
        Sheet {
            years: ONE_YEAR_OF_EACH_KIND.to_vec(),
            months: (0..=99).collect(),
            days: (0..=99).collect(),
        }
    }

    /// The days that tell whether a year is one, and a leap year.
    pub fn of_each_year() -> Sheet {
        Sheet {
            years: (0..=10_000).collect(),
            months: vec![2],
            days: vec![28, 29],
        }
    }

    /// The days about the ends of the months, and months about the ends of the year.
    pub fn of_ends(years: Vec<u64>) -> Sheet {
        Sheet {
            years,
            months: (0..=13).chain([50, 99]).collect(),
            days: vec![0, 1, 28, 29, 30, 31, 32, 99],
        }
    }

    /// The same in every year, each with its month.
    pub fn days_of_a_year(&self) -> impl Iterator<Item = (u64, u64)> + '_ {
        let of_month = |&month| self.days.iter().map(move |&day| (month, day));
        self.months.iter().flat_map(of_month)
    }
}

#[cfg(test)]
mod tests {
    use super::*;
    use crate::calendar::days_in_month;
    use std::collections::BTreeSet;

    #[test]
    fn the_first_years_are_one_of_each_kind() {
        let kinds = ONE_YEAR_OF_EACH_KIND.map(KindOfYear::of);
        assert_eq!(kinds, KindOfYear::ALL);
        assert_eq!(noted_years()[..4], ONE_YEAR_OF_EACH_KIND);
    }

    #[test]
    fn no_year_comes_twice_and_no_remainder_is_missing() {
        let years = years_of_each_remainder();
        let distinct: BTreeSet<u64> = years.iter().copied().collect();
        assert_eq!(distinct.len(), years.len());
        let in_range = years.iter().filter(|year| (1583..=9999).contains(*year));
        let remainders: BTreeSet<u64> = in_range.map(|year| year % 400).collect();
        assert_eq!(remainders.len(), 400);
    }

    #[test]
    fn years_at_the_edges_are_noted() {
        for year in [0, 1582, 1583, 1600, 1700, 1900, 2000, 2100, 9999, 10_000] {
            assert!(noted_years().contains(&year), "{year}");
        }
    }

    #[test]
    fn every_end_of_a_month_is_on_a_sheet_with_the_day_behind_it() {
        let ends = Sheet::of_ends(years_of_each_remainder());
        for sheet in [Sheet::of_each_month_and_day(), ends] {
            let days: BTreeSet<(u64, u64)> = sheet.days_of_a_year().collect();
            for kind in KindOfYear::ALL {
                let is_of_kind = |year: &&u64| KindOfYear::of(**year) == kind;
                let year = *sheet.years.iter().find(is_of_kind).unwrap();
                for month in 1..=12 {
                    let last = days_in_month(year, month);
                    assert!(days.contains(&(month, last)), "{year}, {month}");
                    assert!(days.contains(&(month, last + 1)), "{year}, {month}");
                }
            }
            assert!(days.contains(&(0, 1)) && days.contains(&(13, 1)));
            assert!(days.contains(&(1, 0)) && days.contains(&(12, 99)));
        }
    }

    #[test]
    fn a_sheet_is_as_large_as_it_says() {
        let size = |sheet: Sheet| sheet.years.len() * sheet.days_of_a_year().count();
        assert_eq!(size(Sheet::of_each_month_and_day()), 4 * 10_000);
        assert_eq!(size(Sheet::of_each_year()), 2 * 10_001);
        assert_eq!(size(Sheet::of_ends(noted_years())), 20 * 16 * 8);
    }
}
