//! Renders R-3 as a table of the years whose months were judged.

use super::{group, Coverage, Group};
use crate::against::dates::{Judged, Place};
use crate::calendar::{days_in_month, YEARS};
use crate::generate::dates::KindOfYear;

/// Next to those that are.
const NO_MONTHS: [u64; 2] = [0, 13];

impl Coverage {
    /// A year counts where the last day of each of its months is found to be one, and the day behind it to be none.
    pub fn note_year(&mut self, place: Place, year: u64, judged: &Judged) {
        if !YEARS.contains(&year) {
            return;
        }
        let is_day = |month, day| judged.get(&(month, day)) == Some(&true);
        let is_none = |month, day| judged.get(&(month, day)) == Some(&false);
        let ends = |month| {
            let last = days_in_month(year, month);
            is_day(month, last) && is_none(month, last + 1)
        };
        if (1..=12).all(ends) {
            self.meet(&judged_at(place), KindOfYear::of(year).word());
        }
        for month in NO_MONTHS.into_iter().filter(|&month| is_none(month, 1)) {
            self.meet(&judged_at(place), no_month(month));
        }
    }
}

fn judged_at(place: Place) -> String {
    format!("months, {place}")
}

fn no_month(month: u64) -> String {
    format!("no month {month}")
}

pub fn groups() -> Vec<Group> {
    let mut groups = Vec::new();
    for place in Place::all() {
        groups.push(group(
            &judged_at(place),
            &KindOfYear::ALL.map(KindOfYear::word),
        ));
        groups.push(group(&judged_at(place), &NO_MONTHS.map(no_month)));
    }
    groups
}

#[cfg(test)]
mod tests {
    use super::*;

    fn judged(year: u64) -> Judged {
        let mut judged = Judged::new();
        for month in 0..=13 {
            let last = days_in_month(year, month);
            for day in 1..=31 {
                judged.insert((month, day), day <= last);
            }
            judged.insert((month, 32), false);
        }
        judged
    }

    fn gaps_after(year: u64, judged: &Judged) -> impl Fn(&str) -> bool {
        let mut coverage = Coverage::default();
        coverage.note_year(Place::Asked, year, judged);
        let gaps = coverage.gaps();
        move |words| gaps.contains(&words.to_string())
    }

    #[test]
    fn a_year_is_met_by_its_kind_and_in_its_place() {
        let is_gap = gaps_after(1900, &judged(1900));
        assert!(!is_gap("months, asked: century") && is_gap("months, booked: century"));
        assert!(is_gap("months, asked: common") && is_gap("months, asked: 400th"));
        assert!(!is_gap("months, asked: no month 0") && !is_gap("months, asked: no month 13"));
    }

    #[test]
    fn one_end_not_met_leaves_the_year_out() {
        for month in 1..=12 {
            let last = days_in_month(2024, month);
            for day in [last, last + 1] {
                let mut otherwise = judged(2024);
                *otherwise.get_mut(&(month, day)).unwrap() ^= true;
                assert!(gaps_after(2024, &otherwise)("months, asked: leap"));
                otherwise.remove(&(month, day));
                assert!(gaps_after(2024, &otherwise)("months, asked: leap"));
            }
        }
    }

    #[test]
    fn no_month_is_met_only_where_it_has_no_first_day() {
        let mut with_a_thirteenth = judged(2024);
        with_a_thirteenth.insert((13, 1), true);
        let is_gap = gaps_after(2024, &with_a_thirteenth);
        assert!(is_gap("months, asked: no month 13") && !is_gap("months, asked: no month 0"));
    }

    #[test]
    fn a_year_that_is_none_is_left_out() {
        let is_gap = gaps_after(1582, &judged(1582));
        assert!(is_gap("months, asked: common") && is_gap("months, asked: no month 0"));
    }
}
