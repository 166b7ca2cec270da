//! Renders R-2, summer and winter records: which record of several is used on a day.

use std::collections::HashMap;
use std::hash::Hash;

use crate::period::Period;

/// Which record of an offer is used: the railway's own or the one of 0000.
#[derive(Clone, Copy, Debug, PartialEq, Eq)]
pub enum Source {
    Own,
    Default,
}

#[derive(Clone, Copy, Debug, PartialEq, Eq)]
pub enum Choice<'a, T> {
    NoRecord,
    NoneValid,
    Valid(Source, &'a T),
}

/// Records by key; those of one key share no day.
pub struct Seasons<K, T> {
    by_key: HashMap<K, Vec<(Period, T)>>,
}

impl<K, T> Default for Seasons<K, T> {
    fn default() -> Seasons<K, T> {
        let by_key = HashMap::new();
        Seasons { by_key }
    }
}

impl<K: Eq + Hash, T> Seasons<K, T> {
    pub fn add(&mut self, key: K, period: Period, record: T) {
        self.by_key.entry(key).or_default().push((period, record));
    }

    fn of_key(&self, key: &K) -> &[(Period, T)] {
        self.by_key.get(key).map_or(&[], Vec::as_slice)
    }

    pub fn choose(&self, own: &K, default: &K, day: u64) -> Choice<'_, T> {
        let (own, default) = (self.of_key(own), self.of_key(default));
        if let Some(record) = valid_on(own, day) {
            return Choice::Valid(Source::Own, record);
        }
        if let Some(record) = valid_on(default, day) {
            return Choice::Valid(Source::Default, record);
        }
        match own.is_empty() && default.is_empty() {
            true => Choice::NoRecord,
            false => Choice::NoneValid,
        }
    }
}

fn valid_on<T>(records: &[(Period, T)], day: u64) -> Option<&T> {
    let valid = records.iter().find(|(period, _)| period.holds(day));
    valid.map(|(_, record)| record)
}

#[cfg(test)]
mod tests {
    use super::*;

    const MARCH: Period = Period {
        first: 20240301,
        last: 20240331,
    };
    const APRIL: Period = Period {
        first: 20240401,
        last: 20240430,
    };
    const IN_MARCH: u64 = 20240315;
    const IN_APRIL: u64 = 20240415;
    const IN_MAY: u64 = 20240501;

    fn seasons(records: &[(u64, Period)]) -> Seasons<u64, usize> {
        let mut seasons = Seasons::default();
        for (place, &(key, period)) in records.iter().enumerate() {
            seasons.add(key, period, place);
        }
        seasons
    }

    fn chosen(records: &[(u64, Period)], day: u64) -> Option<(Source, usize)> {
        match seasons(records).choose(&1185, &0, day) {
            Choice::Valid(source, &place) => Some((source, place)),
            Choice::NoRecord | Choice::NoneValid => None,
        }
    }

    #[test]
    fn the_own_one_valid_that_day_else_the_one_of_0000_valid_that_day() {
        let records = [(0, APRIL), (1185, MARCH), (0, MARCH)];
        assert_eq!(chosen(&records, IN_MARCH), Some((Source::Own, 1)));
        assert_eq!(chosen(&records, IN_APRIL), Some((Source::Default, 0)));
        assert_eq!(chosen(&records, IN_MAY), None);
    }

    #[test]
    fn any_of_several_own_ones_can_be_the_valid_one() {
        for records in [
            [(1185, MARCH), (1185, APRIL)],
            [(1185, APRIL), (1185, MARCH)],
        ] {
            for (place, (_, period)) in records.iter().enumerate() {
                let due = Some((Source::Own, place));
                assert_eq!(chosen(&records, period.first), due);
                assert_eq!(chosen(&records, period.last), due);
            }
        }
    }

    #[test]
    fn none_valid_is_told_from_no_record() {
        let on_a_day_of_none = |records: &[(u64, Period)]| {
            let seasons = seasons(records);
            seasons.choose(&1185, &0, IN_MAY) == Choice::NoneValid
        };
        assert!(on_a_day_of_none(&[(1185, MARCH)]));
        assert!(on_a_day_of_none(&[(0, MARCH)]));
        assert!(on_a_day_of_none(&[(0, MARCH), (1185, APRIL)]));
        assert!(!on_a_day_of_none(&[(1181, MARCH)]));
        assert!(!on_a_day_of_none(&[]));
    }
}
