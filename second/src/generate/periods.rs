//! Renders R-2 as periods: of one key, so that no two share a day.

use super::random::Random;
use super::valid::drawn_day;
use crate::calendar::{day_after, days_in_month, join, split, FIRST_DAY, LAST_DAY};
use crate::period::Period;

const NOTED_STARTS: [u64; 9] = [
    FIRST_DAY, 20231230, 20231231, 20240101, 20240227, 20240228, 20240229, 20240531, 20240601,
];
const LASTS_FOR_EVER_ONE_IN: u64 = 8;

/// So many, the earliest first. Some follow each other without a day between, some with one, some with more.
pub fn timetable(random: &mut Random, count: usize) -> Vec<Period> {
    let mut periods = Vec::new();
    let mut first = drawn_start(random);
    for _ in 0..count {
        let last = drawn_last(random, first);
        periods.push(Period::of(first, last));
        first = drawn_next(random, last);
    }
    if random.one_in(LASTS_FOR_EVER_ONE_IN) {
        if let Some(period) = periods.last_mut() {
            period.last = LAST_DAY;
        }
    }
    periods
}

fn drawn_start(random: &mut Random) -> u64 {
    match random.below(3) {
        0 => drawn_day(random, 20230101, 20251231),
        _ => random.pick(&NOTED_STARTS),
    }
}

fn drawn_last(random: &mut Random, first: u64) -> u64 {
    let (year, month, _) = split(first);
    match random.below(8) {
        0 => first,
        1 => day_after(first),
        2..=4 => days_after(first, random.between(2, 60)),
        5 => join(year, month, days_in_month(year, month)),
        6 => join(year, 12, 31),
        _ => join(year + 1, 2, days_in_month(year + 1, 2)),
    }
}

fn drawn_next(random: &mut Random, last: u64) -> u64 {
    let days_between = match random.below(4) {
        0 | 1 => 0,
        2 => 1,
        _ => random.between(2, 90),
    };
    days_after(last, 1 + days_between)
}

pub fn days_after(day: u64, days: u64) -> u64 {
    (0..days).fold(day, |day, _| day_after(day))
}

/// Some of the timetable, at least one; some that follow each other are made one.
pub fn some_of(random: &mut Random, timetable: &[Period]) -> Vec<Period> {
    let sure = random.place_in(timetable.len());
    let mut chosen: Vec<Period> = Vec::new();
    for (place, &period) in timetable.iter().enumerate() {
        if place != sure && random.one_in(3) {
            continue;
        }
        match chosen.last_mut() {
            Some(before) if random.one_in(8) => before.last = period.last,
            _ => chosen.push(period),
        }
    }
    chosen
}

#[cfg(test)]
mod tests {
    use super::*;
    use crate::calendar::is_real_day;

    fn share_no_day(periods: &[Period]) -> bool {
        let follows = |pair: &[Period]| pair[0].last < pair[1].first;
        periods.windows(2).all(follows)
    }

    fn are_real(period: &Period) -> bool {
        is_real_day(period.first) && is_real_day(period.last) && period.first <= period.last
    }

    #[test]
    fn periods_of_a_timetable_share_no_day() {
        let mut random = Random::from_seed(91);
        for turn in 0..500 {
            let count = 1 + turn % 40;
            let periods = timetable(&mut random, count);
            assert_eq!(periods.len(), count);
            assert!(periods.iter().all(are_real) && share_no_day(&periods));
            let some = some_of(&mut random, &periods);
            assert!(!some.is_empty() && some.len() <= count);
            assert!(some.iter().all(are_real) && share_no_day(&some));
        }
    }

    #[test]
    fn periods_touch_or_lie_one_day_or_more_apart() {
        let mut random = Random::from_seed(92);
        let mut met = [0; 3];
        for pair in (0..300).map(|_| timetable(&mut random, 2)) {
            let next = pair[1].first;
            match next {
                _ if next == days_after(pair[0].last, 1) => met[0] += 1,
                _ if next == days_after(pair[0].last, 2) => met[1] += 1,
                _ => met[2] += 1,
            }
        }
        assert!(met.iter().all(|&times| times > 30), "{met:?}");
    }
}
